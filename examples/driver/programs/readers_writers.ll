; ModuleID = 'readers_writers.c'
source_filename = "readers_writers.c"
target datalayout = "e-m:e-p270:32:32-p271:32:32-p272:64:64-i64:64-f80:128-n8:16:32:64-S128"
target triple = "x86_64-pc-linux-gnu"

%union.pthread_rwlock_t = type { %struct.__pthread_rwlock_arch_t }
%struct.__pthread_rwlock_arch_t = type { i32, i32, i32, i32, i32, i32, i32, i32, i8, [7 x i8], i64, i32 }

@.str = private unnamed_addr constant [36 x i8] c"sum %ld, copies that differed: %ld\0A\00", align 1
@sum = internal global i64 0, align 8
@lock = internal global %union.pthread_rwlock_t zeroinitializer, align 8
@copy = internal global i64 0, align 8

; Function Attrs: noinline nounwind optnone uwtable
define dso_local i32 @main() #0 {
  %1 = alloca i32, align 4
  %2 = alloca i64, align 8
  %3 = alloca [2 x i64], align 16
  %4 = alloca i32, align 4
  %5 = alloca i64, align 8
  %6 = alloca i32, align 4
  %7 = alloca ptr, align 8
  store i32 0, ptr %1, align 4
  %8 = call i32 @pthread_create(ptr noundef %2, ptr noundef null, ptr noundef @writer, ptr noundef null) #3
  store i32 0, ptr %4, align 4
  br label %9

9:                                                ; preds = %17, %0
  %10 = load i32, ptr %4, align 4
  %11 = icmp slt i32 %10, 2
  br i1 %11, label %12, label %20

12:                                               ; preds = %9
  %13 = load i32, ptr %4, align 4
  %14 = sext i32 %13 to i64
  %15 = getelementptr inbounds [2 x i64], ptr %3, i64 0, i64 %14
  %16 = call i32 @pthread_create(ptr noundef %15, ptr noundef null, ptr noundef @reader, ptr noundef null) #3
  br label %17

17:                                               ; preds = %12
  %18 = load i32, ptr %4, align 4
  %19 = add nsw i32 %18, 1
  store i32 %19, ptr %4, align 4
  br label %9, !llvm.loop !6

20:                                               ; preds = %9
  store i64 0, ptr %5, align 8
  store i32 0, ptr %6, align 4
  br label %21

21:                                               ; preds = %34, %20
  %22 = load i32, ptr %6, align 4
  %23 = icmp slt i32 %22, 2
  br i1 %23, label %24, label %37

24:                                               ; preds = %21
  %25 = load i32, ptr %6, align 4
  %26 = sext i32 %25 to i64
  %27 = getelementptr inbounds [2 x i64], ptr %3, i64 0, i64 %26
  %28 = load i64, ptr %27, align 8
  %29 = call i32 @pthread_join(i64 noundef %28, ptr noundef %7)
  %30 = load ptr, ptr %7, align 8
  %31 = ptrtoint ptr %30 to i64
  %32 = load i64, ptr %5, align 8
  %33 = add nsw i64 %32, %31
  store i64 %33, ptr %5, align 8
  br label %34

34:                                               ; preds = %24
  %35 = load i32, ptr %6, align 4
  %36 = add nsw i32 %35, 1
  store i32 %36, ptr %6, align 4
  br label %21, !llvm.loop !8

37:                                               ; preds = %21
  %38 = load i64, ptr %2, align 8
  %39 = call i32 @pthread_join(i64 noundef %38, ptr noundef null)
  %40 = load i64, ptr @sum, align 8
  %41 = load i64, ptr %5, align 8
  %42 = call i32 (ptr, ...) @printf(ptr noundef @.str, i64 noundef %40, i64 noundef %41)
  ret i32 0
}

; Function Attrs: nounwind
declare i32 @pthread_create(ptr noundef, ptr noundef, ptr noundef, ptr noundef) #1

; Function Attrs: noinline nounwind optnone uwtable
define internal ptr @writer(ptr noundef %0) #0 {
  %2 = alloca ptr, align 8
  %3 = alloca i64, align 8
  store ptr %0, ptr %2, align 8
  store i64 0, ptr %3, align 8
  br label %4

4:                                                ; preds = %16, %1
  %5 = load i64, ptr %3, align 8
  %6 = call i64 @pg_in_len()
  %7 = icmp slt i64 %5, %6
  br i1 %7, label %8, label %19

8:                                                ; preds = %4
  %9 = call i32 @pthread_rwlock_wrlock(ptr noundef @lock) #3
  %10 = load i64, ptr %3, align 8
  %11 = call i64 @pg_in(i64 noundef %10)
  %12 = load i64, ptr @sum, align 8
  %13 = add nsw i64 %12, %11
  store i64 %13, ptr @sum, align 8
  %14 = load i64, ptr @sum, align 8
  store i64 %14, ptr @copy, align 8
  %15 = call i32 @pthread_rwlock_unlock(ptr noundef @lock) #3
  br label %16

16:                                               ; preds = %8
  %17 = load i64, ptr %3, align 8
  %18 = add nsw i64 %17, 1
  store i64 %18, ptr %3, align 8
  br label %4, !llvm.loop !9

19:                                               ; preds = %4
  ret ptr null
}

; Function Attrs: noinline nounwind optnone uwtable
define internal ptr @reader(ptr noundef %0) #0 {
  %2 = alloca ptr, align 8
  %3 = alloca i64, align 8
  %4 = alloca i64, align 8
  store ptr %0, ptr %2, align 8
  store i64 0, ptr %3, align 8
  store i64 0, ptr %4, align 8
  br label %5

5:                                                ; preds = %19, %1
  %6 = load i64, ptr %4, align 8
  %7 = call i64 @pg_in_len()
  %8 = icmp slt i64 %6, %7
  br i1 %8, label %9, label %22

9:                                                ; preds = %5
  %10 = call i32 @pthread_rwlock_rdlock(ptr noundef @lock) #3
  %11 = load i64, ptr @sum, align 8
  %12 = load i64, ptr @copy, align 8
  %13 = icmp ne i64 %11, %12
  %14 = zext i1 %13 to i32
  %15 = sext i32 %14 to i64
  %16 = load i64, ptr %3, align 8
  %17 = add nsw i64 %16, %15
  store i64 %17, ptr %3, align 8
  %18 = call i32 @pthread_rwlock_unlock(ptr noundef @lock) #3
  br label %19

19:                                               ; preds = %9
  %20 = load i64, ptr %4, align 8
  %21 = add nsw i64 %20, 1
  store i64 %21, ptr %4, align 8
  br label %5, !llvm.loop !10

22:                                               ; preds = %5
  %23 = load i64, ptr %3, align 8
  %24 = inttoptr i64 %23 to ptr
  ret ptr %24
}

declare i32 @pthread_join(i64 noundef, ptr noundef) #2

declare i32 @printf(ptr noundef, ...) #2

declare i64 @pg_in_len() #2

; Function Attrs: nounwind
declare i32 @pthread_rwlock_wrlock(ptr noundef) #1

declare i64 @pg_in(i64 noundef) #2

; Function Attrs: nounwind
declare i32 @pthread_rwlock_unlock(ptr noundef) #1

; Function Attrs: nounwind
declare i32 @pthread_rwlock_rdlock(ptr noundef) #1

attributes #0 = { noinline nounwind optnone uwtable "frame-pointer"="all" "min-legal-vector-width"="0" "no-trapping-math"="true" "stack-protector-buffer-size"="8" "target-cpu"="x86-64" "target-features"="+cx8,+fxsr,+mmx,+sse,+sse2,+x87" "tune-cpu"="generic" }
attributes #1 = { nounwind "frame-pointer"="all" "no-trapping-math"="true" "stack-protector-buffer-size"="8" "target-cpu"="x86-64" "target-features"="+cx8,+fxsr,+mmx,+sse,+sse2,+x87" "tune-cpu"="generic" }
attributes #2 = { "frame-pointer"="all" "no-trapping-math"="true" "stack-protector-buffer-size"="8" "target-cpu"="x86-64" "target-features"="+cx8,+fxsr,+mmx,+sse,+sse2,+x87" "tune-cpu"="generic" }
attributes #3 = { nounwind }

!llvm.module.flags = !{!0, !1, !2, !3, !4}
!llvm.ident = !{!5}

!0 = !{i32 1, !"wchar_size", i32 4}
!1 = !{i32 8, !"PIC Level", i32 2}
!2 = !{i32 7, !"PIE Level", i32 2}
!3 = !{i32 7, !"uwtable", i32 2}
!4 = !{i32 7, !"frame-pointer", i32 2}
!5 = !{!"Debian clang version 16.0.6 (15~deb12u1)"}
!6 = distinct !{!6, !7}
!7 = !{!"llvm.loop.mustprogress"}
!8 = distinct !{!8, !7}
!9 = distinct !{!9, !7}
!10 = distinct !{!10, !7}
