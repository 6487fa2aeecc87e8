; ModuleID = 'word_count.c'
source_filename = "word_count.c"
target datalayout = "e-m:e-p270:32:32-p271:32:32-p272:64:64-i64:64-f80:128-n8:16:32:64-S128"
target triple = "x86_64-pc-linux-gnu"

%union.pthread_mutex_t = type { %struct.__pthread_mutex_s }
%struct.__pthread_mutex_s = type { i32, i32, i32, i32, i32, i16, i16, %struct.__pthread_internal_list }
%struct.__pthread_internal_list = type { ptr, ptr }
%union.pthread_cond_t = type { %struct.__pthread_cond_s }
%struct.__pthread_cond_s = type { %union.__atomic_wide_counter, %union.__atomic_wide_counter, [2 x i32], [2 x i32], i32, i32, [2 x i32] }
%union.__atomic_wide_counter = type { i64 }

@.str = private unnamed_addr constant [10 x i8] c"%d %d %d\0A\00", align 1
@text = internal constant [90 x i8] c"it takes a program text\0Aand lines of numbers\0Aand the schedule that was tested\0Aruns again\0A\00", align 16
@lock = internal global %union.pthread_mutex_t zeroinitializer, align 8
@full = internal global i8 0, align 1
@changed = internal global %union.pthread_cond_t zeroinitializer, align 8
@piece = internal global [16 x i8] zeroinitializer, align 16
@length = internal global i64 0, align 8
@closed = internal global i8 0, align 1

; Function Attrs: noinline nounwind optnone uwtable
define dso_local i32 @main() #0 {
  %1 = alloca i32, align 4
  %2 = alloca i64, align 8
  %3 = alloca [16 x i8], align 16
  %4 = alloca i32, align 4
  %5 = alloca i32, align 4
  %6 = alloca i32, align 4
  %7 = alloca i8, align 1
  %8 = alloca i64, align 8
  %9 = alloca i64, align 8
  %10 = alloca i8, align 1
  store i32 0, ptr %1, align 4
  store i32 0, ptr %4, align 4
  store i32 0, ptr %5, align 4
  store i32 0, ptr %6, align 4
  store i8 0, ptr %7, align 1
  %11 = call i32 @pthread_create(ptr noundef %2, ptr noundef null, ptr noundef @producer, ptr noundef null) #5
  br label %12

12:                                               ; preds = %63, %0
  %13 = getelementptr inbounds [16 x i8], ptr %3, i64 0, i64 0
  %14 = call i64 @take(ptr noundef %13)
  store i64 %14, ptr %8, align 8
  %15 = icmp ugt i64 %14, 0
  br i1 %15, label %16, label %68

16:                                               ; preds = %12
  store i64 0, ptr %9, align 8
  br label %17

17:                                               ; preds = %59, %16
  %18 = load i64, ptr %9, align 8
  %19 = load i64, ptr %8, align 8
  %20 = icmp ult i64 %18, %19
  br i1 %20, label %21, label %62

21:                                               ; preds = %17
  %22 = load i64, ptr %9, align 8
  %23 = getelementptr inbounds [16 x i8], ptr %3, i64 0, i64 %22
  %24 = load i8, ptr %23, align 1
  %25 = sext i8 %24 to i32
  %26 = icmp eq i32 %25, 32
  br i1 %26, label %33, label %27

27:                                               ; preds = %21
  %28 = load i64, ptr %9, align 8
  %29 = getelementptr inbounds [16 x i8], ptr %3, i64 0, i64 %28
  %30 = load i8, ptr %29, align 1
  %31 = sext i8 %30 to i32
  %32 = icmp eq i32 %31, 10
  br label %33

33:                                               ; preds = %27, %21
  %34 = phi i1 [ true, %21 ], [ %32, %27 ]
  %35 = zext i1 %34 to i8
  store i8 %35, ptr %10, align 1
  %36 = load i8, ptr %10, align 1
  %37 = trunc i8 %36 to i1
  br i1 %37, label %42, label %38

38:                                               ; preds = %33
  %39 = load i8, ptr %7, align 1
  %40 = trunc i8 %39 to i1
  %41 = xor i1 %40, true
  br label %42

42:                                               ; preds = %38, %33
  %43 = phi i1 [ false, %33 ], [ %41, %38 ]
  %44 = zext i1 %43 to i32
  %45 = load i32, ptr %4, align 4
  %46 = add nsw i32 %45, %44
  store i32 %46, ptr %4, align 4
  %47 = load i8, ptr %10, align 1
  %48 = trunc i8 %47 to i1
  %49 = xor i1 %48, true
  %50 = zext i1 %49 to i8
  store i8 %50, ptr %7, align 1
  %51 = load i64, ptr %9, align 8
  %52 = getelementptr inbounds [16 x i8], ptr %3, i64 0, i64 %51
  %53 = load i8, ptr %52, align 1
  %54 = sext i8 %53 to i32
  %55 = icmp eq i32 %54, 10
  %56 = zext i1 %55 to i32
  %57 = load i32, ptr %5, align 4
  %58 = add nsw i32 %57, %56
  store i32 %58, ptr %5, align 4
  br label %59

59:                                               ; preds = %42
  %60 = load i64, ptr %9, align 8
  %61 = add i64 %60, 1
  store i64 %61, ptr %9, align 8
  br label %17, !llvm.loop !6

62:                                               ; preds = %17
  br label %63

63:                                               ; preds = %62
  %64 = load i64, ptr %8, align 8
  %65 = trunc i64 %64 to i32
  %66 = load i32, ptr %6, align 4
  %67 = add nsw i32 %66, %65
  store i32 %67, ptr %6, align 4
  br label %12, !llvm.loop !8

68:                                               ; preds = %12
  %69 = load i64, ptr %2, align 8
  %70 = call i32 @pthread_join(i64 noundef %69, ptr noundef null)
  %71 = load i32, ptr %5, align 4
  %72 = load i32, ptr %4, align 4
  %73 = load i32, ptr %6, align 4
  %74 = call i32 (ptr, ...) @printf(ptr noundef @.str, i32 noundef %71, i32 noundef %72, i32 noundef %73)
  ret i32 0
}

; Function Attrs: nounwind
declare i32 @pthread_create(ptr noundef, ptr noundef, ptr noundef, ptr noundef) #1

; Function Attrs: noinline nounwind optnone uwtable
define internal ptr @producer(ptr noundef %0) #0 {
  %2 = alloca ptr, align 8
  %3 = alloca i64, align 8
  %4 = alloca i64, align 8
  %5 = alloca i64, align 8
  store ptr %0, ptr %2, align 8
  %6 = call i64 @pg_in(i64 noundef 0)
  %7 = icmp sgt i64 %6, 0
  br i1 %7, label %8, label %13

8:                                                ; preds = %1
  %9 = call i64 @pg_in(i64 noundef 0)
  %10 = icmp sle i64 %9, 16
  br i1 %10, label %11, label %13

11:                                               ; preds = %8
  %12 = call i64 @pg_in(i64 noundef 0)
  br label %14

13:                                               ; preds = %8, %1
  br label %14

14:                                               ; preds = %13, %11
  %15 = phi i64 [ %12, %11 ], [ 16, %13 ]
  store i64 %15, ptr %3, align 8
  %16 = call i64 @strlen(ptr noundef @text) #6
  store i64 %16, ptr %4, align 8
  store i64 0, ptr %5, align 8
  br label %17

17:                                               ; preds = %37, %14
  %18 = load i64, ptr %5, align 8
  %19 = load i64, ptr %4, align 8
  %20 = icmp ult i64 %18, %19
  br i1 %20, label %21, label %41

21:                                               ; preds = %17
  %22 = load i64, ptr %5, align 8
  %23 = getelementptr inbounds i8, ptr @text, i64 %22
  %24 = load i64, ptr %4, align 8
  %25 = load i64, ptr %5, align 8
  %26 = sub i64 %24, %25
  %27 = load i64, ptr %3, align 8
  %28 = icmp ult i64 %26, %27
  br i1 %28, label %29, label %33

29:                                               ; preds = %21
  %30 = load i64, ptr %4, align 8
  %31 = load i64, ptr %5, align 8
  %32 = sub i64 %30, %31
  br label %35

33:                                               ; preds = %21
  %34 = load i64, ptr %3, align 8
  br label %35

35:                                               ; preds = %33, %29
  %36 = phi i64 [ %32, %29 ], [ %34, %33 ]
  call void @hand_over(ptr noundef %23, i64 noundef %36)
  br label %37

37:                                               ; preds = %35
  %38 = load i64, ptr %3, align 8
  %39 = load i64, ptr %5, align 8
  %40 = add i64 %39, %38
  store i64 %40, ptr %5, align 8
  br label %17, !llvm.loop !9

41:                                               ; preds = %17
  call void @hand_over(ptr noundef @text, i64 noundef 0)
  ret ptr null
}

; Function Attrs: noinline nounwind optnone uwtable
define internal i64 @take(ptr noundef %0) #0 {
  %2 = alloca ptr, align 8
  %3 = alloca i64, align 8
  store ptr %0, ptr %2, align 8
  %4 = call i32 @pthread_mutex_lock(ptr noundef @lock) #5
  br label %5

5:                                                ; preds = %14, %1
  %6 = load i8, ptr @full, align 1
  %7 = trunc i8 %6 to i1
  br i1 %7, label %12, label %8

8:                                                ; preds = %5
  %9 = load i8, ptr @closed, align 1
  %10 = trunc i8 %9 to i1
  %11 = xor i1 %10, true
  br label %12

12:                                               ; preds = %8, %5
  %13 = phi i1 [ false, %5 ], [ %11, %8 ]
  br i1 %13, label %14, label %16

14:                                               ; preds = %12
  %15 = call i32 @pthread_cond_wait(ptr noundef @changed, ptr noundef @lock)
  br label %5, !llvm.loop !10

16:                                               ; preds = %12
  %17 = load i8, ptr @full, align 1
  %18 = trunc i8 %17 to i1
  br i1 %18, label %19, label %21

19:                                               ; preds = %16
  %20 = load i64, ptr @length, align 8
  br label %22

21:                                               ; preds = %16
  br label %22

22:                                               ; preds = %21, %19
  %23 = phi i64 [ %20, %19 ], [ 0, %21 ]
  store i64 %23, ptr %3, align 8
  %24 = load ptr, ptr %2, align 8
  %25 = load i64, ptr %3, align 8
  call void @llvm.memcpy.p0.p0.i64(ptr align 1 %24, ptr align 16 @piece, i64 %25, i1 false)
  store i8 0, ptr @full, align 1
  %26 = call i32 @pthread_cond_broadcast(ptr noundef @changed) #5
  %27 = call i32 @pthread_mutex_unlock(ptr noundef @lock) #5
  %28 = load i64, ptr %3, align 8
  ret i64 %28
}

declare i32 @pthread_join(i64 noundef, ptr noundef) #2

declare i32 @printf(ptr noundef, ...) #2

declare i64 @pg_in(i64 noundef) #2

; Function Attrs: nounwind willreturn memory(read)
declare i64 @strlen(ptr noundef) #3

; Function Attrs: noinline nounwind optnone uwtable
define internal void @hand_over(ptr noundef %0, i64 noundef %1) #0 {
  %3 = alloca ptr, align 8
  %4 = alloca i64, align 8
  store ptr %0, ptr %3, align 8
  store i64 %1, ptr %4, align 8
  %5 = call i32 @pthread_mutex_lock(ptr noundef @lock) #5
  br label %6

6:                                                ; preds = %9, %2
  %7 = load i8, ptr @full, align 1
  %8 = trunc i8 %7 to i1
  br i1 %8, label %9, label %11

9:                                                ; preds = %6
  %10 = call i32 @pthread_cond_wait(ptr noundef @changed, ptr noundef @lock)
  br label %6, !llvm.loop !11

11:                                               ; preds = %6
  %12 = load ptr, ptr %3, align 8
  %13 = load i64, ptr %4, align 8
  call void @llvm.memcpy.p0.p0.i64(ptr align 16 @piece, ptr align 1 %12, i64 %13, i1 false)
  %14 = load i64, ptr %4, align 8
  store i64 %14, ptr @length, align 8
  %15 = load i64, ptr %4, align 8
  %16 = icmp ugt i64 %15, 0
  %17 = zext i1 %16 to i8
  store i8 %17, ptr @full, align 1
  %18 = load i64, ptr %4, align 8
  %19 = icmp eq i64 %18, 0
  %20 = zext i1 %19 to i8
  store i8 %20, ptr @closed, align 1
  %21 = call i32 @pthread_cond_broadcast(ptr noundef @changed) #5
  %22 = call i32 @pthread_mutex_unlock(ptr noundef @lock) #5
  ret void
}

; Function Attrs: nounwind
declare i32 @pthread_mutex_lock(ptr noundef) #1

declare i32 @pthread_cond_wait(ptr noundef, ptr noundef) #2

; Function Attrs: nocallback nofree nounwind willreturn memory(argmem: readwrite)
declare void @llvm.memcpy.p0.p0.i64(ptr noalias nocapture writeonly, ptr noalias nocapture readonly, i64, i1 immarg) #4

; Function Attrs: nounwind
declare i32 @pthread_cond_broadcast(ptr noundef) #1

; Function Attrs: nounwind
declare i32 @pthread_mutex_unlock(ptr noundef) #1

attributes #0 = { noinline nounwind optnone uwtable "frame-pointer"="all" "min-legal-vector-width"="0" "no-trapping-math"="true" "stack-protector-buffer-size"="8" "target-cpu"="x86-64" "target-features"="+cx8,+fxsr,+mmx,+sse,+sse2,+x87" "tune-cpu"="generic" }
attributes #1 = { nounwind "frame-pointer"="all" "no-trapping-math"="true" "stack-protector-buffer-size"="8" "target-cpu"="x86-64" "target-features"="+cx8,+fxsr,+mmx,+sse,+sse2,+x87" "tune-cpu"="generic" }
attributes #2 = { "frame-pointer"="all" "no-trapping-math"="true" "stack-protector-buffer-size"="8" "target-cpu"="x86-64" "target-features"="+cx8,+fxsr,+mmx,+sse,+sse2,+x87" "tune-cpu"="generic" }
attributes #3 = { nounwind willreturn memory(read) "frame-pointer"="all" "no-trapping-math"="true" "stack-protector-buffer-size"="8" "target-cpu"="x86-64" "target-features"="+cx8,+fxsr,+mmx,+sse,+sse2,+x87" "tune-cpu"="generic" }
attributes #4 = { nocallback nofree nounwind willreturn memory(argmem: readwrite) }
attributes #5 = { nounwind }
attributes #6 = { nounwind willreturn memory(read) }

!llvm.module.flags = !{!0, !1, !2, !3, !4}
!llvm.ident = !{!5}

!0 = !{i32 1, !"wchar_size", i32 4}
!1 = !{i32 8, !"PIC Level", i32 2}
!2 = !{i32 7, !"PIE Level", i32 2}
!3 = !{i32 7, !"uwtable", i32 2}
!4 = !{i32 7, !"frame-pointer", i32 2}
!5 = !{!"Debian clang version 16.0.6 (15~deb12u1)"}
!6 = distinct !{!6, !7}
!7 = !{!"llvm.loop.mustprogress"}
!8 = distinct !{!8, !7}
!9 = distinct !{!9, !7}
!10 = distinct !{!10, !7}
!11 = distinct !{!11, !7}
