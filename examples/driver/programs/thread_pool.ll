; ModuleID = 'thread_pool.c'
source_filename = "thread_pool.c"
target datalayout = "e-m:e-p270:32:32-p271:32:32-p272:64:64-i64:64-f80:128-n8:16:32:64-S128"
target triple = "x86_64-pc-linux-gnu"

%struct.anon = type { [4 x %struct.work], i32, i32, i8, %union.pthread_mutex_t, %union.pthread_cond_t, %union.pthread_cond_t }
%struct.work = type { i64, ptr }
%union.pthread_mutex_t = type { %struct.__pthread_mutex_s }
%struct.__pthread_mutex_s = type { i32, i32, i32, i32, i32, i16, i16, %struct.__pthread_internal_list }
%struct.__pthread_internal_list = type { ptr, ptr }
%union.pthread_cond_t = type { %struct.__pthread_cond_s }
%struct.__pthread_cond_s = type { %union.__atomic_wide_counter, %union.__atomic_wide_counter, [2 x i32], [2 x i32], i32, i32, [2 x i32] }
%union.__atomic_wide_counter = type { i64 }

@main.answers = internal global [512 x i64] zeroinitializer, align 16
@queue = internal global %struct.anon zeroinitializer, align 8

; Function Attrs: noinline nounwind optnone uwtable
define dso_local i32 @main() #0 {
  %1 = alloca i32, align 4
  %2 = alloca [3 x i64], align 16
  %3 = alloca i32, align 4
  %4 = alloca i64, align 8
  %5 = alloca %struct.work, align 8
  %6 = alloca i32, align 4
  %7 = alloca i64, align 8
  store i32 0, ptr %1, align 4
  store i32 0, ptr %3, align 4
  br label %8

8:                                                ; preds = %16, %0
  %9 = load i32, ptr %3, align 4
  %10 = icmp slt i32 %9, 3
  br i1 %10, label %11, label %19

11:                                               ; preds = %8
  %12 = load i32, ptr %3, align 4
  %13 = sext i32 %12 to i64
  %14 = getelementptr inbounds [3 x i64], ptr %2, i64 0, i64 %13
  %15 = call i32 @pthread_create(ptr noundef %14, ptr noundef null, ptr noundef @worker, ptr noundef null) #4
  br label %16

16:                                               ; preds = %11
  %17 = load i32, ptr %3, align 4
  %18 = add nsw i32 %17, 1
  store i32 %18, ptr %3, align 4
  br label %8, !llvm.loop !6

19:                                               ; preds = %8
  store i64 0, ptr %4, align 8
  br label %20

20:                                               ; preds = %35, %19
  %21 = load i64, ptr %4, align 8
  %22 = call i64 @pg_in_len()
  %23 = icmp slt i64 %21, %22
  br i1 %23, label %24, label %38

24:                                               ; preds = %20
  %25 = getelementptr inbounds %struct.work, ptr %5, i32 0, i32 0
  %26 = load i64, ptr %4, align 8
  %27 = call i64 @pg_in(i64 noundef %26)
  store i64 %27, ptr %25, align 8
  %28 = getelementptr inbounds %struct.work, ptr %5, i32 0, i32 1
  %29 = load i64, ptr %4, align 8
  %30 = getelementptr inbounds [512 x i64], ptr @main.answers, i64 0, i64 %29
  store ptr %30, ptr %28, align 8
  %31 = getelementptr inbounds { i64, ptr }, ptr %5, i32 0, i32 0
  %32 = load i64, ptr %31, align 8
  %33 = getelementptr inbounds { i64, ptr }, ptr %5, i32 0, i32 1
  %34 = load ptr, ptr %33, align 8
  call void @put(i64 %32, ptr %34)
  br label %35

35:                                               ; preds = %24
  %36 = load i64, ptr %4, align 8
  %37 = add nsw i64 %36, 1
  store i64 %37, ptr %4, align 8
  br label %20, !llvm.loop !8

38:                                               ; preds = %20
  call void @close_queue()
  store i32 0, ptr %6, align 4
  br label %39

39:                                               ; preds = %48, %38
  %40 = load i32, ptr %6, align 4
  %41 = icmp slt i32 %40, 3
  br i1 %41, label %42, label %51

42:                                               ; preds = %39
  %43 = load i32, ptr %6, align 4
  %44 = sext i32 %43 to i64
  %45 = getelementptr inbounds [3 x i64], ptr %2, i64 0, i64 %44
  %46 = load i64, ptr %45, align 8
  %47 = call i32 @pthread_join(i64 noundef %46, ptr noundef null)
  br label %48

48:                                               ; preds = %42
  %49 = load i32, ptr %6, align 4
  %50 = add nsw i32 %49, 1
  store i32 %50, ptr %6, align 4
  br label %39, !llvm.loop !9

51:                                               ; preds = %39
  store i64 0, ptr %7, align 8
  br label %52

52:                                               ; preds = %60, %51
  %53 = load i64, ptr %7, align 8
  %54 = call i64 @pg_in_len()
  %55 = icmp slt i64 %53, %54
  br i1 %55, label %56, label %63

56:                                               ; preds = %52
  %57 = load i64, ptr %7, align 8
  %58 = getelementptr inbounds [512 x i64], ptr @main.answers, i64 0, i64 %57
  %59 = load i64, ptr %58, align 8
  call void @pg_out(i64 noundef %59)
  br label %60

60:                                               ; preds = %56
  %61 = load i64, ptr %7, align 8
  %62 = add nsw i64 %61, 1
  store i64 %62, ptr %7, align 8
  br label %52, !llvm.loop !10

63:                                               ; preds = %52
  ret i32 0
}

; Function Attrs: nounwind
declare i32 @pthread_create(ptr noundef, ptr noundef, ptr noundef, ptr noundef) #1

; Function Attrs: noinline nounwind optnone uwtable
define internal ptr @worker(ptr noundef %0) #0 {
  %2 = alloca ptr, align 8
  %3 = alloca %struct.work, align 8
  store ptr %0, ptr %2, align 8
  br label %4

4:                                                ; preds = %6, %1
  %5 = call zeroext i1 @take(ptr noundef %3)
  br i1 %5, label %6, label %12

6:                                                ; preds = %4
  %7 = getelementptr inbounds %struct.work, ptr %3, i32 0, i32 0
  %8 = load i64, ptr %7, align 8
  %9 = call i64 @steps(i64 noundef %8)
  %10 = getelementptr inbounds %struct.work, ptr %3, i32 0, i32 1
  %11 = load ptr, ptr %10, align 8
  store i64 %9, ptr %11, align 8
  br label %4, !llvm.loop !11

12:                                               ; preds = %4
  ret ptr null
}

declare i64 @pg_in_len() #2

; Function Attrs: noinline nounwind optnone uwtable
define internal void @put(i64 %0, ptr %1) #0 {
  %3 = alloca %struct.work, align 8
  %4 = getelementptr inbounds { i64, ptr }, ptr %3, i32 0, i32 0
  store i64 %0, ptr %4, align 8
  %5 = getelementptr inbounds { i64, ptr }, ptr %3, i32 0, i32 1
  store ptr %1, ptr %5, align 8
  %6 = call i32 @pthread_mutex_lock(ptr noundef getelementptr inbounds (%struct.anon, ptr @queue, i32 0, i32 4)) #4
  br label %7

7:                                                ; preds = %10, %2
  %8 = load i32, ptr getelementptr inbounds (%struct.anon, ptr @queue, i32 0, i32 2), align 4
  %9 = icmp eq i32 %8, 4
  br i1 %9, label %10, label %12

10:                                               ; preds = %7
  %11 = call i32 @pthread_cond_wait(ptr noundef getelementptr inbounds (%struct.anon, ptr @queue, i32 0, i32 6), ptr noundef getelementptr inbounds (%struct.anon, ptr @queue, i32 0, i32 4))
  br label %7, !llvm.loop !12

12:                                               ; preds = %7
  %13 = load i32, ptr getelementptr inbounds (%struct.anon, ptr @queue, i32 0, i32 1), align 8
  %14 = load i32, ptr getelementptr inbounds (%struct.anon, ptr @queue, i32 0, i32 2), align 4
  %15 = add nsw i32 %14, 1
  store i32 %15, ptr getelementptr inbounds (%struct.anon, ptr @queue, i32 0, i32 2), align 4
  %16 = add nsw i32 %13, %14
  %17 = srem i32 %16, 4
  %18 = sext i32 %17 to i64
  %19 = getelementptr inbounds [4 x %struct.work], ptr @queue, i64 0, i64 %18
  call void @llvm.memcpy.p0.p0.i64(ptr align 8 %19, ptr align 8 %3, i64 16, i1 false)
  %20 = call i32 @pthread_cond_signal(ptr noundef getelementptr inbounds (%struct.anon, ptr @queue, i32 0, i32 5)) #4
  %21 = call i32 @pthread_mutex_unlock(ptr noundef getelementptr inbounds (%struct.anon, ptr @queue, i32 0, i32 4)) #4
  ret void
}

declare i64 @pg_in(i64 noundef) #2

; Function Attrs: noinline nounwind optnone uwtable
define internal void @close_queue() #0 {
  %1 = call i32 @pthread_mutex_lock(ptr noundef getelementptr inbounds (%struct.anon, ptr @queue, i32 0, i32 4)) #4
  store i8 1, ptr getelementptr inbounds (%struct.anon, ptr @queue, i32 0, i32 3), align 8
  %2 = call i32 @pthread_cond_broadcast(ptr noundef getelementptr inbounds (%struct.anon, ptr @queue, i32 0, i32 5)) #4
  %3 = call i32 @pthread_mutex_unlock(ptr noundef getelementptr inbounds (%struct.anon, ptr @queue, i32 0, i32 4)) #4
  ret void
}

declare i32 @pthread_join(i64 noundef, ptr noundef) #2

declare void @pg_out(i64 noundef) #2

; Function Attrs: noinline nounwind optnone uwtable
define internal zeroext i1 @take(ptr noundef %0) #0 {
  %2 = alloca ptr, align 8
  %3 = alloca i8, align 1
  store ptr %0, ptr %2, align 8
  %4 = call i32 @pthread_mutex_lock(ptr noundef getelementptr inbounds (%struct.anon, ptr @queue, i32 0, i32 4)) #4
  br label %5

5:                                                ; preds = %14, %1
  %6 = load i32, ptr getelementptr inbounds (%struct.anon, ptr @queue, i32 0, i32 2), align 4
  %7 = icmp eq i32 %6, 0
  br i1 %7, label %8, label %12

8:                                                ; preds = %5
  %9 = load i8, ptr getelementptr inbounds (%struct.anon, ptr @queue, i32 0, i32 3), align 8
  %10 = trunc i8 %9 to i1
  %11 = xor i1 %10, true
  br label %12

12:                                               ; preds = %8, %5
  %13 = phi i1 [ false, %5 ], [ %11, %8 ]
  br i1 %13, label %14, label %16

14:                                               ; preds = %12
  %15 = call i32 @pthread_cond_wait(ptr noundef getelementptr inbounds (%struct.anon, ptr @queue, i32 0, i32 5), ptr noundef getelementptr inbounds (%struct.anon, ptr @queue, i32 0, i32 4))
  br label %5, !llvm.loop !13

16:                                               ; preds = %12
  %17 = load i32, ptr getelementptr inbounds (%struct.anon, ptr @queue, i32 0, i32 2), align 4
  %18 = icmp sgt i32 %17, 0
  %19 = zext i1 %18 to i8
  store i8 %19, ptr %3, align 1
  %20 = load i8, ptr %3, align 1
  %21 = trunc i8 %20 to i1
  br i1 %21, label %22, label %33

22:                                               ; preds = %16
  %23 = load ptr, ptr %2, align 8
  %24 = load i32, ptr getelementptr inbounds (%struct.anon, ptr @queue, i32 0, i32 1), align 8
  %25 = sext i32 %24 to i64
  %26 = getelementptr inbounds [4 x %struct.work], ptr @queue, i64 0, i64 %25
  call void @llvm.memcpy.p0.p0.i64(ptr align 8 %23, ptr align 8 %26, i64 16, i1 false)
  %27 = load i32, ptr getelementptr inbounds (%struct.anon, ptr @queue, i32 0, i32 1), align 8
  %28 = add nsw i32 %27, 1
  %29 = srem i32 %28, 4
  store i32 %29, ptr getelementptr inbounds (%struct.anon, ptr @queue, i32 0, i32 1), align 8
  %30 = load i32, ptr getelementptr inbounds (%struct.anon, ptr @queue, i32 0, i32 2), align 4
  %31 = add nsw i32 %30, -1
  store i32 %31, ptr getelementptr inbounds (%struct.anon, ptr @queue, i32 0, i32 2), align 4
  %32 = call i32 @pthread_cond_signal(ptr noundef getelementptr inbounds (%struct.anon, ptr @queue, i32 0, i32 6)) #4
  br label %33

33:                                               ; preds = %22, %16
  %34 = call i32 @pthread_mutex_unlock(ptr noundef getelementptr inbounds (%struct.anon, ptr @queue, i32 0, i32 4)) #4
  %35 = load i8, ptr %3, align 1
  %36 = trunc i8 %35 to i1
  ret i1 %36
}

; Function Attrs: noinline nounwind optnone uwtable
define internal i64 @steps(i64 noundef %0) #0 {
  %2 = alloca i64, align 8
  %3 = alloca i64, align 8
  store i64 %0, ptr %2, align 8
  store i64 0, ptr %3, align 8
  br label %4

4:                                                ; preds = %25, %1
  %5 = load i64, ptr %2, align 8
  %6 = icmp sgt i64 %5, 1
  br i1 %6, label %7, label %10

7:                                                ; preds = %4
  %8 = load i64, ptr %3, align 8
  %9 = icmp slt i64 %8, 200
  br label %10

10:                                               ; preds = %7, %4
  %11 = phi i1 [ false, %4 ], [ %9, %7 ]
  br i1 %11, label %12, label %28

12:                                               ; preds = %10
  %13 = load i64, ptr %2, align 8
  %14 = srem i64 %13, 2
  %15 = icmp eq i64 %14, 0
  br i1 %15, label %16, label %19

16:                                               ; preds = %12
  %17 = load i64, ptr %2, align 8
  %18 = sdiv i64 %17, 2
  br label %23

19:                                               ; preds = %12
  %20 = load i64, ptr %2, align 8
  %21 = mul nsw i64 3, %20
  %22 = add nsw i64 %21, 1
  br label %23

23:                                               ; preds = %19, %16
  %24 = phi i64 [ %18, %16 ], [ %22, %19 ]
  store i64 %24, ptr %2, align 8
  br label %25

25:                                               ; preds = %23
  %26 = load i64, ptr %3, align 8
  %27 = add nsw i64 %26, 1
  store i64 %27, ptr %3, align 8
  br label %4, !llvm.loop !14

28:                                               ; preds = %10
  %29 = load i64, ptr %3, align 8
  ret i64 %29
}

; Function Attrs: nounwind
declare i32 @pthread_mutex_lock(ptr noundef) #1

declare i32 @pthread_cond_wait(ptr noundef, ptr noundef) #2

; Function Attrs: nocallback nofree nounwind willreturn memory(argmem: readwrite)
declare void @llvm.memcpy.p0.p0.i64(ptr noalias nocapture writeonly, ptr noalias nocapture readonly, i64, i1 immarg) #3

; Function Attrs: nounwind
declare i32 @pthread_cond_signal(ptr noundef) #1

; Function Attrs: nounwind
declare i32 @pthread_mutex_unlock(ptr noundef) #1

; Function Attrs: nounwind
declare i32 @pthread_cond_broadcast(ptr noundef) #1

attributes #0 = { noinline nounwind optnone uwtable "frame-pointer"="all" "min-legal-vector-width"="0" "no-trapping-math"="true" "stack-protector-buffer-size"="8" "target-cpu"="x86-64" "target-features"="+cx8,+fxsr,+mmx,+sse,+sse2,+x87" "tune-cpu"="generic" }
attributes #1 = { nounwind "frame-pointer"="all" "no-trapping-math"="true" "stack-protector-buffer-size"="8" "target-cpu"="x86-64" "target-features"="+cx8,+fxsr,+mmx,+sse,+sse2,+x87" "tune-cpu"="generic" }
attributes #2 = { "frame-pointer"="all" "no-trapping-math"="true" "stack-protector-buffer-size"="8" "target-cpu"="x86-64" "target-features"="+cx8,+fxsr,+mmx,+sse,+sse2,+x87" "tune-cpu"="generic" }
attributes #3 = { nocallback nofree nounwind willreturn memory(argmem: readwrite) }
attributes #4 = { nounwind }

!llvm.module.flags = !{!0, !1, !2, !3, !4}
!llvm.ident = !{!5}

!0 = !{i32 1, !"wchar_size", i32 4}
!1 = !{i32 8, !"PIC Level", i32 2}
!2 = !{i32 7, !"PIE Level", i32 2}
!3 = !{i32 7, !"uwtable", i32 2}
!4 = !{i32 7, !"frame-pointer", i32 2}
!5 = !{!"Debian clang version 16.0.6 (15~deb12u1)"}
!6 = distinct !{!6, !7}
!7 = !{!"llvm.loop.mustprogress"}
!8 = distinct !{!8, !7}
!9 = distinct !{!9, !7}
!10 = distinct !{!10, !7}
!11 = distinct !{!11, !7}
!12 = distinct !{!12, !7}
!13 = distinct !{!13, !7}
!14 = distinct !{!14, !7}
