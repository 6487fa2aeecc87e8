; ModuleID = 'queue.c'
source_filename = "queue.c"
target datalayout = "e-m:e-p270:32:32-p271:32:32-p272:64:64-i64:64-f80:128-n8:16:32:64-S128"
target triple = "x86_64-pc-linux-gnu"

%struct.queue = type { %union.pthread_mutex_t, %union.pthread_cond_t, %union.pthread_cond_t, [4 x i64], i32, i32, i8 }
%union.pthread_mutex_t = type { %struct.__pthread_mutex_s }
%struct.__pthread_mutex_s = type { i32, i32, i32, i32, i32, i16, i16, %struct.__pthread_internal_list }
%struct.__pthread_internal_list = type { ptr, ptr }
%union.pthread_cond_t = type { %struct.__pthread_cond_s }
%struct.__pthread_cond_s = type { %union.__atomic_wide_counter, %union.__atomic_wide_counter, [2 x i32], [2 x i32], i32, i32, [2 x i32] }
%union.__atomic_wide_counter = type { i64 }

@queue = internal global %struct.queue zeroinitializer, align 8
@sums = internal global [2 x i64] zeroinitializer, align 16

; Function Attrs: noinline nounwind optnone uwtable
define dso_local i32 @main() #0 {
  %1 = alloca i32, align 4
  %2 = alloca [2 x i64], align 16
  %3 = alloca i32, align 4
  %4 = alloca i64, align 8
  %5 = alloca i32, align 4
  store i32 0, ptr %1, align 4
  %6 = call i32 @pthread_mutex_init(ptr noundef @queue, ptr noundef null) #3
  %7 = call i32 @pthread_cond_init(ptr noundef getelementptr inbounds (%struct.queue, ptr @queue, i32 0, i32 1), ptr noundef null) #3
  %8 = call i32 @pthread_cond_init(ptr noundef getelementptr inbounds (%struct.queue, ptr @queue, i32 0, i32 2), ptr noundef null) #3
  store i32 0, ptr %3, align 4
  br label %9

9:                                                ; preds = %20, %0
  %10 = load i32, ptr %3, align 4
  %11 = icmp slt i32 %10, 2
  br i1 %11, label %12, label %23

12:                                               ; preds = %9
  %13 = load i32, ptr %3, align 4
  %14 = sext i32 %13 to i64
  %15 = getelementptr inbounds [2 x i64], ptr %2, i64 0, i64 %14
  %16 = load i32, ptr %3, align 4
  %17 = sext i32 %16 to i64
  %18 = getelementptr inbounds [2 x i64], ptr @sums, i64 0, i64 %17
  %19 = call i32 @pthread_create(ptr noundef %15, ptr noundef null, ptr noundef @worker, ptr noundef %18) #3
  br label %20

20:                                               ; preds = %12
  %21 = load i32, ptr %3, align 4
  %22 = add nsw i32 %21, 1
  store i32 %22, ptr %3, align 4
  br label %9, !llvm.loop !6

23:                                               ; preds = %9
  store i64 0, ptr %4, align 8
  br label %24

24:                                               ; preds = %31, %23
  %25 = load i64, ptr %4, align 8
  %26 = call i64 @pg_in_len()
  %27 = icmp slt i64 %25, %26
  br i1 %27, label %28, label %34

28:                                               ; preds = %24
  %29 = load i64, ptr %4, align 8
  %30 = call i64 @pg_in(i64 noundef %29)
  call void @put(ptr noundef @queue, i64 noundef %30)
  br label %31

31:                                               ; preds = %28
  %32 = load i64, ptr %4, align 8
  %33 = add nsw i64 %32, 1
  store i64 %33, ptr %4, align 8
  br label %24, !llvm.loop !8

34:                                               ; preds = %24
  call void @close_queue(ptr noundef @queue)
  store i32 0, ptr %5, align 4
  br label %35

35:                                               ; preds = %44, %34
  %36 = load i32, ptr %5, align 4
  %37 = icmp slt i32 %36, 2
  br i1 %37, label %38, label %47

38:                                               ; preds = %35
  %39 = load i32, ptr %5, align 4
  %40 = sext i32 %39 to i64
  %41 = getelementptr inbounds [2 x i64], ptr %2, i64 0, i64 %40
  %42 = load i64, ptr %41, align 8
  %43 = call i32 @pthread_join(i64 noundef %42, ptr noundef null)
  br label %44

44:                                               ; preds = %38
  %45 = load i32, ptr %5, align 4
  %46 = add nsw i32 %45, 1
  store i32 %46, ptr %5, align 4
  br label %35, !llvm.loop !9

47:                                               ; preds = %35
  %48 = load i64, ptr @sums, align 16
  %49 = load i64, ptr getelementptr inbounds ([2 x i64], ptr @sums, i64 0, i64 1), align 8
  %50 = add nsw i64 %48, %49
  call void @pg_out(i64 noundef %50)
  %51 = call i32 @pthread_cond_destroy(ptr noundef getelementptr inbounds (%struct.queue, ptr @queue, i32 0, i32 2)) #3
  %52 = call i32 @pthread_cond_destroy(ptr noundef getelementptr inbounds (%struct.queue, ptr @queue, i32 0, i32 1)) #3
  %53 = call i32 @pthread_mutex_destroy(ptr noundef @queue) #3
  ret i32 0
}

; Function Attrs: nounwind
declare i32 @pthread_mutex_init(ptr noundef, ptr noundef) #1

; Function Attrs: nounwind
declare i32 @pthread_cond_init(ptr noundef, ptr noundef) #1

; Function Attrs: nounwind
declare i32 @pthread_create(ptr noundef, ptr noundef, ptr noundef, ptr noundef) #1

; Function Attrs: noinline nounwind optnone uwtable
define internal ptr @worker(ptr noundef %0) #0 {
  %2 = alloca ptr, align 8
  %3 = alloca i64, align 8
  store ptr %0, ptr %2, align 8
  br label %4

4:                                                ; preds = %7, %1
  %5 = call i32 @take(ptr noundef @queue, ptr noundef %3)
  %6 = icmp ne i32 %5, 0
  br i1 %6, label %7, label %12

7:                                                ; preds = %4
  %8 = load i64, ptr %3, align 8
  %9 = load ptr, ptr %2, align 8
  %10 = load i64, ptr %9, align 8
  %11 = add nsw i64 %10, %8
  store i64 %11, ptr %9, align 8
  br label %4, !llvm.loop !10

12:                                               ; preds = %4
  ret ptr null
}

declare i64 @pg_in_len() #2

; Function Attrs: noinline nounwind optnone uwtable
define internal void @put(ptr noundef %0, i64 noundef %1) #0 {
  %3 = alloca ptr, align 8
  %4 = alloca i64, align 8
  store ptr %0, ptr %3, align 8
  store i64 %1, ptr %4, align 8
  %5 = load ptr, ptr %3, align 8
  %6 = getelementptr inbounds %struct.queue, ptr %5, i32 0, i32 0
  %7 = call i32 @pthread_mutex_lock(ptr noundef %6) #3
  br label %8

8:                                                ; preds = %13, %2
  %9 = load ptr, ptr %3, align 8
  %10 = getelementptr inbounds %struct.queue, ptr %9, i32 0, i32 5
  %11 = load i32, ptr %10, align 4
  %12 = icmp eq i32 %11, 4
  br i1 %12, label %13, label %19

13:                                               ; preds = %8
  %14 = load ptr, ptr %3, align 8
  %15 = getelementptr inbounds %struct.queue, ptr %14, i32 0, i32 2
  %16 = load ptr, ptr %3, align 8
  %17 = getelementptr inbounds %struct.queue, ptr %16, i32 0, i32 0
  %18 = call i32 @pthread_cond_wait(ptr noundef %15, ptr noundef %17)
  br label %8, !llvm.loop !11

19:                                               ; preds = %8
  %20 = load i64, ptr %4, align 8
  %21 = load ptr, ptr %3, align 8
  %22 = getelementptr inbounds %struct.queue, ptr %21, i32 0, i32 3
  %23 = load ptr, ptr %3, align 8
  %24 = getelementptr inbounds %struct.queue, ptr %23, i32 0, i32 4
  %25 = load i32, ptr %24, align 8
  %26 = load ptr, ptr %3, align 8
  %27 = getelementptr inbounds %struct.queue, ptr %26, i32 0, i32 5
  %28 = load i32, ptr %27, align 4
  %29 = add nsw i32 %25, %28
  %30 = srem i32 %29, 4
  %31 = sext i32 %30 to i64
  %32 = getelementptr inbounds [4 x i64], ptr %22, i64 0, i64 %31
  store i64 %20, ptr %32, align 8
  %33 = load ptr, ptr %3, align 8
  %34 = getelementptr inbounds %struct.queue, ptr %33, i32 0, i32 5
  %35 = load i32, ptr %34, align 4
  %36 = add nsw i32 %35, 1
  store i32 %36, ptr %34, align 4
  %37 = load ptr, ptr %3, align 8
  %38 = getelementptr inbounds %struct.queue, ptr %37, i32 0, i32 1
  %39 = call i32 @pthread_cond_signal(ptr noundef %38) #3
  %40 = load ptr, ptr %3, align 8
  %41 = getelementptr inbounds %struct.queue, ptr %40, i32 0, i32 0
  %42 = call i32 @pthread_mutex_unlock(ptr noundef %41) #3
  ret void
}

declare i64 @pg_in(i64 noundef) #2

; Function Attrs: noinline nounwind optnone uwtable
define internal void @close_queue(ptr noundef %0) #0 {
  %2 = alloca ptr, align 8
  store ptr %0, ptr %2, align 8
  %3 = load ptr, ptr %2, align 8
  %4 = getelementptr inbounds %struct.queue, ptr %3, i32 0, i32 0
  %5 = call i32 @pthread_mutex_lock(ptr noundef %4) #3
  %6 = load ptr, ptr %2, align 8
  %7 = getelementptr inbounds %struct.queue, ptr %6, i32 0, i32 6
  store i8 1, ptr %7, align 8
  %8 = load ptr, ptr %2, align 8
  %9 = getelementptr inbounds %struct.queue, ptr %8, i32 0, i32 1
  %10 = call i32 @pthread_cond_broadcast(ptr noundef %9) #3
  %11 = load ptr, ptr %2, align 8
  %12 = getelementptr inbounds %struct.queue, ptr %11, i32 0, i32 0
  %13 = call i32 @pthread_mutex_unlock(ptr noundef %12) #3
  ret void
}

declare i32 @pthread_join(i64 noundef, ptr noundef) #2

declare void @pg_out(i64 noundef) #2

; Function Attrs: nounwind
declare i32 @pthread_cond_destroy(ptr noundef) #1

; Function Attrs: nounwind
declare i32 @pthread_mutex_destroy(ptr noundef) #1

; Function Attrs: noinline nounwind optnone uwtable
define internal i32 @take(ptr noundef %0, ptr noundef %1) #0 {
  %3 = alloca ptr, align 8
  %4 = alloca ptr, align 8
  %5 = alloca i32, align 4
  store ptr %0, ptr %3, align 8
  store ptr %1, ptr %4, align 8
  store i32 0, ptr %5, align 4
  %6 = load ptr, ptr %3, align 8
  %7 = getelementptr inbounds %struct.queue, ptr %6, i32 0, i32 0
  %8 = call i32 @pthread_mutex_lock(ptr noundef %7) #3
  br label %9

9:                                                ; preds = %22, %2
  %10 = load ptr, ptr %3, align 8
  %11 = getelementptr inbounds %struct.queue, ptr %10, i32 0, i32 5
  %12 = load i32, ptr %11, align 4
  %13 = icmp eq i32 %12, 0
  br i1 %13, label %14, label %20

14:                                               ; preds = %9
  %15 = load ptr, ptr %3, align 8
  %16 = getelementptr inbounds %struct.queue, ptr %15, i32 0, i32 6
  %17 = load i8, ptr %16, align 8
  %18 = icmp ne i8 %17, 0
  %19 = xor i1 %18, true
  br label %20

20:                                               ; preds = %14, %9
  %21 = phi i1 [ false, %9 ], [ %19, %14 ]
  br i1 %21, label %22, label %28

22:                                               ; preds = %20
  %23 = load ptr, ptr %3, align 8
  %24 = getelementptr inbounds %struct.queue, ptr %23, i32 0, i32 1
  %25 = load ptr, ptr %3, align 8
  %26 = getelementptr inbounds %struct.queue, ptr %25, i32 0, i32 0
  %27 = call i32 @pthread_cond_wait(ptr noundef %24, ptr noundef %26)
  br label %9, !llvm.loop !12

28:                                               ; preds = %20
  %29 = load ptr, ptr %3, align 8
  %30 = getelementptr inbounds %struct.queue, ptr %29, i32 0, i32 5
  %31 = load i32, ptr %30, align 4
  %32 = icmp sgt i32 %31, 0
  br i1 %32, label %33, label %57

33:                                               ; preds = %28
  %34 = load ptr, ptr %3, align 8
  %35 = getelementptr inbounds %struct.queue, ptr %34, i32 0, i32 3
  %36 = load ptr, ptr %3, align 8
  %37 = getelementptr inbounds %struct.queue, ptr %36, i32 0, i32 4
  %38 = load i32, ptr %37, align 8
  %39 = sext i32 %38 to i64
  %40 = getelementptr inbounds [4 x i64], ptr %35, i64 0, i64 %39
  %41 = load i64, ptr %40, align 8
  %42 = load ptr, ptr %4, align 8
  store i64 %41, ptr %42, align 8
  %43 = load ptr, ptr %3, align 8
  %44 = getelementptr inbounds %struct.queue, ptr %43, i32 0, i32 4
  %45 = load i32, ptr %44, align 8
  %46 = add nsw i32 %45, 1
  %47 = srem i32 %46, 4
  %48 = load ptr, ptr %3, align 8
  %49 = getelementptr inbounds %struct.queue, ptr %48, i32 0, i32 4
  store i32 %47, ptr %49, align 8
  %50 = load ptr, ptr %3, align 8
  %51 = getelementptr inbounds %struct.queue, ptr %50, i32 0, i32 5
  %52 = load i32, ptr %51, align 4
  %53 = add nsw i32 %52, -1
  store i32 %53, ptr %51, align 4
  store i32 1, ptr %5, align 4
  %54 = load ptr, ptr %3, align 8
  %55 = getelementptr inbounds %struct.queue, ptr %54, i32 0, i32 2
  %56 = call i32 @pthread_cond_signal(ptr noundef %55) #3
  br label %57

57:                                               ; preds = %33, %28
  %58 = load ptr, ptr %3, align 8
  %59 = getelementptr inbounds %struct.queue, ptr %58, i32 0, i32 0
  %60 = call i32 @pthread_mutex_unlock(ptr noundef %59) #3
  %61 = load i32, ptr %5, align 4
  ret i32 %61
}

; Function Attrs: nounwind
declare i32 @pthread_mutex_lock(ptr noundef) #1

declare i32 @pthread_cond_wait(ptr noundef, ptr noundef) #2

; Function Attrs: nounwind
declare i32 @pthread_cond_signal(ptr noundef) #1

; Function Attrs: nounwind
declare i32 @pthread_mutex_unlock(ptr noundef) #1

; Function Attrs: nounwind
declare i32 @pthread_cond_broadcast(ptr noundef) #1

attributes #0 = { noinline nounwind optnone uwtable "frame-pointer"="all" "min-legal-vector-width"="0" "no-trapping-math"="true" "stack-protector-buffer-size"="8" "target-cpu"="x86-64" "target-features"="+cx8,+fxsr,+mmx,+sse,+sse2,+x87" "tune-cpu"="generic" }
attributes #1 = { nounwind "frame-pointer"="all" "no-trapping-math"="true" "stack-protector-buffer-size"="8" "target-cpu"="x86-64" "target-features"="+cx8,+fxsr,+mmx,+sse,+sse2,+x87" "tune-cpu"="generic" }
attributes #2 = { "frame-pointer"="all" "no-trapping-math"="true" "stack-protector-buffer-size"="8" "target-cpu"="x86-64" "target-features"="+cx8,+fxsr,+mmx,+sse,+sse2,+x87" "tune-cpu"="generic" }
attributes #3 = { nounwind }

!llvm.module.flags = !{!0, !1, !2, !3, !4}
!llvm.ident = !{!5}

!0 = !{i32 1, !"wchar_size", i32 4}
!1 = !{i32 8, !"PIC Level", i32 2}
!2 = !{i32 7, !"PIE Level", i32 2}
!3 = !{i32 7, !"uwtable", i32 2}
!4 = !{i32 7, !"frame-pointer", i32 2}
!5 = !{!"Debian clang version 16.0.6 (15~deb12u1)"}
!6 = distinct !{!6, !7}
!7 = !{!"llvm.loop.mustprogress"}
!8 = distinct !{!8, !7}
!9 = distinct !{!9, !7}
!10 = distinct !{!10, !7}
!11 = distinct !{!11, !7}
!12 = distinct !{!12, !7}
