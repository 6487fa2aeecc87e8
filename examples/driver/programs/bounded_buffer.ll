; ModuleID = 'bounded_buffer.c'
source_filename = "bounded_buffer.c"
target datalayout = "e-m:e-p270:32:32-p271:32:32-p272:64:64-i64:64-f80:128-n8:16:32:64-S128"
target triple = "x86_64-pc-linux-gnu"

%union.sem_t = type { i64, [24 x i8] }
%union.pthread_mutex_t = type { %struct.__pthread_mutex_s }
%struct.__pthread_mutex_s = type { i32, i32, i32, i32, i32, i16, i16, %struct.__pthread_internal_list }
%struct.__pthread_internal_list = type { ptr, ptr }

@empty = internal global %union.sem_t zeroinitializer, align 8
@full = internal global %union.sem_t zeroinitializer, align 8
@.str = private unnamed_addr constant [22 x i8] c"%ld numbers, sum %ld\0A\00", align 1
@lock = internal global %union.pthread_mutex_t zeroinitializer, align 8
@buffer = internal global [3 x i64] zeroinitializer, align 16
@last = internal global i32 0, align 4
@first = internal global i32 0, align 4

; Function Attrs: noinline nounwind optnone uwtable
define dso_local i32 @main() #0 {
  %1 = alloca i32, align 4
  %2 = alloca [2 x i64], align 16
  %3 = alloca [2 x i64], align 16
  %4 = alloca i64, align 8
  %5 = alloca i64, align 8
  %6 = alloca i64, align 8
  %7 = alloca i32, align 4
  %8 = alloca ptr, align 8
  store i32 0, ptr %1, align 4
  %9 = call i64 @pg_in_len()
  %10 = sdiv i64 %9, 2
  store i64 %10, ptr %4, align 8
  %11 = call i32 @sem_init(ptr noundef @empty, i32 noundef 0, i32 noundef 3) #3
  %12 = call i32 @sem_init(ptr noundef @full, i32 noundef 0, i32 noundef 0) #3
  store i64 0, ptr %5, align 8
  br label %13

13:                                               ; preds = %36, %0
  %14 = load i64, ptr %5, align 8
  %15 = icmp slt i64 %14, 2
  br i1 %15, label %16, label %39

16:                                               ; preds = %13
  %17 = load i64, ptr %5, align 8
  %18 = getelementptr inbounds [2 x i64], ptr %2, i64 0, i64 %17
  %19 = load i64, ptr %5, align 8
  %20 = inttoptr i64 %19 to ptr
  %21 = call i32 @pthread_create(ptr noundef %18, ptr noundef null, ptr noundef @producer, ptr noundef %20) #3
  %22 = load i64, ptr %5, align 8
  %23 = getelementptr inbounds [2 x i64], ptr %3, i64 0, i64 %22
  %24 = load i64, ptr %5, align 8
  %25 = icmp ne i64 %24, 0
  br i1 %25, label %26, label %28

26:                                               ; preds = %16
  %27 = load i64, ptr %4, align 8
  br label %32

28:                                               ; preds = %16
  %29 = call i64 @pg_in_len()
  %30 = load i64, ptr %4, align 8
  %31 = sub nsw i64 %29, %30
  br label %32

32:                                               ; preds = %28, %26
  %33 = phi i64 [ %27, %26 ], [ %31, %28 ]
  %34 = inttoptr i64 %33 to ptr
  %35 = call i32 @pthread_create(ptr noundef %23, ptr noundef null, ptr noundef @consumer, ptr noundef %34) #3
  br label %36

36:                                               ; preds = %32
  %37 = load i64, ptr %5, align 8
  %38 = add nsw i64 %37, 1
  store i64 %38, ptr %5, align 8
  br label %13, !llvm.loop !6

39:                                               ; preds = %13
  store i64 0, ptr %6, align 8
  store i32 0, ptr %7, align 4
  br label %40

40:                                               ; preds = %58, %39
  %41 = load i32, ptr %7, align 4
  %42 = icmp slt i32 %41, 2
  br i1 %42, label %43, label %61

43:                                               ; preds = %40
  %44 = load i32, ptr %7, align 4
  %45 = sext i32 %44 to i64
  %46 = getelementptr inbounds [2 x i64], ptr %2, i64 0, i64 %45
  %47 = load i64, ptr %46, align 8
  %48 = call i32 @pthread_join(i64 noundef %47, ptr noundef null)
  %49 = load i32, ptr %7, align 4
  %50 = sext i32 %49 to i64
  %51 = getelementptr inbounds [2 x i64], ptr %3, i64 0, i64 %50
  %52 = load i64, ptr %51, align 8
  %53 = call i32 @pthread_join(i64 noundef %52, ptr noundef %8)
  %54 = load ptr, ptr %8, align 8
  %55 = ptrtoint ptr %54 to i64
  %56 = load i64, ptr %6, align 8
  %57 = add nsw i64 %56, %55
  store i64 %57, ptr %6, align 8
  br label %58

58:                                               ; preds = %43
  %59 = load i32, ptr %7, align 4
  %60 = add nsw i32 %59, 1
  store i32 %60, ptr %7, align 4
  br label %40, !llvm.loop !8

61:                                               ; preds = %40
  %62 = call i64 @pg_in_len()
  %63 = load i64, ptr %6, align 8
  %64 = call i32 (ptr, ...) @printf(ptr noundef @.str, i64 noundef %62, i64 noundef %63)
  ret i32 0
}

declare i64 @pg_in_len() #1

; Function Attrs: nounwind
declare i32 @sem_init(ptr noundef, i32 noundef, i32 noundef) #2

; Function Attrs: nounwind
declare i32 @pthread_create(ptr noundef, ptr noundef, ptr noundef, ptr noundef) #2

; Function Attrs: noinline nounwind optnone uwtable
define internal ptr @producer(ptr noundef %0) #0 {
  %2 = alloca ptr, align 8
  %3 = alloca i64, align 8
  store ptr %0, ptr %2, align 8
  %4 = load ptr, ptr %2, align 8
  %5 = ptrtoint ptr %4 to i64
  store i64 %5, ptr %3, align 8
  br label %6

6:                                                ; preds = %23, %1
  %7 = load i64, ptr %3, align 8
  %8 = call i64 @pg_in_len()
  %9 = icmp slt i64 %7, %8
  br i1 %9, label %10, label %26

10:                                               ; preds = %6
  %11 = call i32 @sem_wait(ptr noundef @empty)
  %12 = call i32 @pthread_mutex_lock(ptr noundef @lock) #3
  %13 = load i64, ptr %3, align 8
  %14 = call i64 @pg_in(i64 noundef %13)
  %15 = load i32, ptr @last, align 4
  %16 = sext i32 %15 to i64
  %17 = getelementptr inbounds [3 x i64], ptr @buffer, i64 0, i64 %16
  store i64 %14, ptr %17, align 8
  %18 = load i32, ptr @last, align 4
  %19 = add nsw i32 %18, 1
  %20 = srem i32 %19, 3
  store i32 %20, ptr @last, align 4
  %21 = call i32 @pthread_mutex_unlock(ptr noundef @lock) #3
  %22 = call i32 @sem_post(ptr noundef @full) #3
  br label %23

23:                                               ; preds = %10
  %24 = load i64, ptr %3, align 8
  %25 = add nsw i64 %24, 2
  store i64 %25, ptr %3, align 8
  br label %6, !llvm.loop !9

26:                                               ; preds = %6
  ret ptr null
}

; Function Attrs: noinline nounwind optnone uwtable
define internal ptr @consumer(ptr noundef %0) #0 {
  %2 = alloca ptr, align 8
  %3 = alloca i64, align 8
  %4 = alloca i64, align 8
  store ptr %0, ptr %2, align 8
  store i64 0, ptr %3, align 8
  store i64 0, ptr %4, align 8
  br label %5

5:                                                ; preds = %24, %1
  %6 = load i64, ptr %4, align 8
  %7 = load ptr, ptr %2, align 8
  %8 = ptrtoint ptr %7 to i64
  %9 = icmp slt i64 %6, %8
  br i1 %9, label %10, label %27

10:                                               ; preds = %5
  %11 = call i32 @sem_wait(ptr noundef @full)
  %12 = call i32 @pthread_mutex_lock(ptr noundef @lock) #3
  %13 = load i32, ptr @first, align 4
  %14 = sext i32 %13 to i64
  %15 = getelementptr inbounds [3 x i64], ptr @buffer, i64 0, i64 %14
  %16 = load i64, ptr %15, align 8
  %17 = load i64, ptr %3, align 8
  %18 = add nsw i64 %17, %16
  store i64 %18, ptr %3, align 8
  %19 = load i32, ptr @first, align 4
  %20 = add nsw i32 %19, 1
  %21 = srem i32 %20, 3
  store i32 %21, ptr @first, align 4
  %22 = call i32 @pthread_mutex_unlock(ptr noundef @lock) #3
  %23 = call i32 @sem_post(ptr noundef @empty) #3
  br label %24

24:                                               ; preds = %10
  %25 = load i64, ptr %4, align 8
  %26 = add nsw i64 %25, 1
  store i64 %26, ptr %4, align 8
  br label %5, !llvm.loop !10

27:                                               ; preds = %5
  %28 = load i64, ptr %3, align 8
  %29 = inttoptr i64 %28 to ptr
  ret ptr %29
}

declare i32 @pthread_join(i64 noundef, ptr noundef) #1

declare i32 @printf(ptr noundef, ...) #1

declare i32 @sem_wait(ptr noundef) #1

; Function Attrs: nounwind
declare i32 @pthread_mutex_lock(ptr noundef) #2

declare i64 @pg_in(i64 noundef) #1

; Function Attrs: nounwind
declare i32 @pthread_mutex_unlock(ptr noundef) #2

; Function Attrs: nounwind
declare i32 @sem_post(ptr noundef) #2

attributes #0 = { noinline nounwind optnone uwtable "frame-pointer"="all" "min-legal-vector-width"="0" "no-trapping-math"="true" "stack-protector-buffer-size"="8" "target-cpu"="x86-64" "target-features"="+cx8,+fxsr,+mmx,+sse,+sse2,+x87" "tune-cpu"="generic" }
attributes #1 = { "frame-pointer"="all" "no-trapping-math"="true" "stack-protector-buffer-size"="8" "target-cpu"="x86-64" "target-features"="+cx8,+fxsr,+mmx,+sse,+sse2,+x87" "tune-cpu"="generic" }
attributes #2 = { nounwind "frame-pointer"="all" "no-trapping-math"="true" "stack-protector-buffer-size"="8" "target-cpu"="x86-64" "target-features"="+cx8,+fxsr,+mmx,+sse,+sse2,+x87" "tune-cpu"="generic" }
attributes #3 = { nounwind }

!llvm.module.flags = !{!0, !1, !2, !3, !4}
!llvm.ident = !{!5}

!0 = !{i32 1, !"wchar_size", i32 4}
!1 = !{i32 8, !"PIC Level", i32 2}
!2 = !{i32 7, !"PIE Level", i32 2}
!3 = !{i32 7, !"uwtable", i32 2}
!4 = !{i32 7, !"frame-pointer", i32 2}
!5 = !{!"Debian clang version 16.0.6 (15~deb12u1)"}
!6 = distinct !{!6, !7}
!7 = !{!"llvm.loop.mustprogress"}
!8 = distinct !{!8, !7}
!9 = distinct !{!9, !7}
!10 = distinct !{!10, !7}
