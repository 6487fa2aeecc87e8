; ModuleID = 'pipeline.c'
source_filename = "pipeline.c"
target datalayout = "e-m:e-p270:32:32-p271:32:32-p272:64:64-i64:64-f80:128-n8:16:32:64-S128"
target triple = "x86_64-pc-linux-gnu"

%struct.slot = type { %union.pthread_mutex_t, %union.pthread_cond_t, i64, i16, i16 }
%union.pthread_mutex_t = type { %struct.__pthread_mutex_s }
%struct.__pthread_mutex_s = type { i32, i32, i32, i32, i32, i16, i16, %struct.__pthread_internal_list }
%struct.__pthread_internal_list = type { ptr, ptr }
%union.pthread_cond_t = type { %struct.__pthread_cond_s }
%struct.__pthread_cond_s = type { %union.__atomic_wide_counter, %union.__atomic_wide_counter, [2 x i32], [2 x i32], i32, i32, [2 x i32] }
%union.__atomic_wide_counter = type { i64 }

; Function Attrs: noinline nounwind optnone uwtable
define dso_local i32 @main() #0 {
  %1 = alloca i32, align 4
  %2 = alloca ptr, align 8
  %3 = alloca [2 x i64], align 16
  %4 = alloca ptr, align 8
  store i32 0, ptr %1, align 4
  %5 = call noalias ptr @malloc(i64 noundef 104) #5
  store ptr %5, ptr %2, align 8
  store ptr null, ptr %4, align 8
  %6 = load ptr, ptr %2, align 8
  %7 = icmp eq ptr %6, null
  br i1 %7, label %8, label %9

8:                                                ; preds = %0
  store i32 1, ptr %1, align 4
  br label %35

9:                                                ; preds = %0
  %10 = load ptr, ptr %2, align 8
  %11 = getelementptr inbounds %struct.slot, ptr %10, i32 0, i32 3
  store i16 0, ptr %11, align 8
  %12 = load ptr, ptr %2, align 8
  %13 = getelementptr inbounds %struct.slot, ptr %12, i32 0, i32 4
  store i16 0, ptr %13, align 2
  %14 = load ptr, ptr %2, align 8
  %15 = getelementptr inbounds %struct.slot, ptr %14, i32 0, i32 0
  %16 = call i32 @pthread_mutex_init(ptr noundef %15, ptr noundef null) #6
  %17 = load ptr, ptr %2, align 8
  %18 = getelementptr inbounds %struct.slot, ptr %17, i32 0, i32 1
  %19 = call i32 @pthread_cond_init(ptr noundef %18, ptr noundef null) #6
  %20 = getelementptr inbounds [2 x i64], ptr %3, i64 0, i64 0
  %21 = load ptr, ptr %2, align 8
  %22 = call i32 @pthread_create(ptr noundef %20, ptr noundef null, ptr noundef @producer, ptr noundef %21) #6
  %23 = getelementptr inbounds [2 x i64], ptr %3, i64 0, i64 1
  %24 = load ptr, ptr %2, align 8
  %25 = call i32 @pthread_create(ptr noundef %23, ptr noundef null, ptr noundef @consumer, ptr noundef %24) #6
  %26 = getelementptr inbounds [2 x i64], ptr %3, i64 0, i64 0
  %27 = load i64, ptr %26, align 16
  %28 = call i32 @pthread_join(i64 noundef %27, ptr noundef null)
  %29 = getelementptr inbounds [2 x i64], ptr %3, i64 0, i64 1
  %30 = load i64, ptr %29, align 8
  %31 = call i32 @pthread_join(i64 noundef %30, ptr noundef %4)
  %32 = load ptr, ptr %4, align 8
  %33 = ptrtoint ptr %32 to i64
  call void @pg_out(i64 noundef %33)
  %34 = load ptr, ptr %2, align 8
  call void @free(ptr noundef %34) #6
  store i32 0, ptr %1, align 4
  br label %35

35:                                               ; preds = %9, %8
  %36 = load i32, ptr %1, align 4
  ret i32 %36
}

; Function Attrs: nounwind allocsize(0)
declare noalias ptr @malloc(i64 noundef) #1

; Function Attrs: nounwind
declare i32 @pthread_mutex_init(ptr noundef, ptr noundef) #2

; Function Attrs: nounwind
declare i32 @pthread_cond_init(ptr noundef, ptr noundef) #2

; Function Attrs: nounwind
declare i32 @pthread_create(ptr noundef, ptr noundef, ptr noundef, ptr noundef) #2

; Function Attrs: noinline nounwind optnone uwtable
define internal ptr @producer(ptr noundef %0) #0 {
  %2 = alloca ptr, align 8
  %3 = alloca i64, align 8
  store ptr %0, ptr %2, align 8
  store i64 0, ptr %3, align 8
  br label %4

4:                                                ; preds = %12, %1
  %5 = load i64, ptr %3, align 8
  %6 = call i64 @pg_in_len()
  %7 = icmp slt i64 %5, %6
  br i1 %7, label %8, label %15

8:                                                ; preds = %4
  %9 = load ptr, ptr %2, align 8
  %10 = load i64, ptr %3, align 8
  %11 = call i64 @pg_in(i64 noundef %10)
  call void @hand_over(ptr noundef %9, i64 noundef %11, i16 noundef signext 0)
  br label %12

12:                                               ; preds = %8
  %13 = load i64, ptr %3, align 8
  %14 = add nsw i64 %13, 1
  store i64 %14, ptr %3, align 8
  br label %4, !llvm.loop !6

15:                                               ; preds = %4
  %16 = load ptr, ptr %2, align 8
  call void @hand_over(ptr noundef %16, i64 noundef 0, i16 noundef signext 1)
  ret ptr null
}

; Function Attrs: noinline nounwind optnone uwtable
define internal ptr @consumer(ptr noundef %0) #0 {
  %2 = alloca ptr, align 8
  %3 = alloca ptr, align 8
  %4 = alloca i64, align 8
  %5 = alloca i64, align 8
  %6 = alloca i32, align 4
  store ptr %0, ptr %2, align 8
  %7 = load ptr, ptr %2, align 8
  store ptr %7, ptr %3, align 8
  store i64 0, ptr %4, align 8
  br label %8

8:                                                ; preds = %43, %1
  %9 = load ptr, ptr %3, align 8
  %10 = getelementptr inbounds %struct.slot, ptr %9, i32 0, i32 0
  %11 = call i32 @pthread_mutex_lock(ptr noundef %10) #6
  br label %12

12:                                               ; preds = %18, %8
  %13 = load ptr, ptr %3, align 8
  %14 = getelementptr inbounds %struct.slot, ptr %13, i32 0, i32 3
  %15 = load i16, ptr %14, align 8
  %16 = icmp ne i16 %15, 0
  %17 = xor i1 %16, true
  br i1 %17, label %18, label %24

18:                                               ; preds = %12
  %19 = load ptr, ptr %3, align 8
  %20 = getelementptr inbounds %struct.slot, ptr %19, i32 0, i32 1
  %21 = load ptr, ptr %3, align 8
  %22 = getelementptr inbounds %struct.slot, ptr %21, i32 0, i32 0
  %23 = call i32 @pthread_cond_wait(ptr noundef %20, ptr noundef %22)
  br label %12, !llvm.loop !8

24:                                               ; preds = %12
  %25 = load ptr, ptr %3, align 8
  %26 = getelementptr inbounds %struct.slot, ptr %25, i32 0, i32 2
  %27 = load i64, ptr %26, align 8
  store i64 %27, ptr %5, align 8
  %28 = load ptr, ptr %3, align 8
  %29 = getelementptr inbounds %struct.slot, ptr %28, i32 0, i32 4
  %30 = load i16, ptr %29, align 2
  %31 = sext i16 %30 to i32
  store i32 %31, ptr %6, align 4
  %32 = load ptr, ptr %3, align 8
  %33 = getelementptr inbounds %struct.slot, ptr %32, i32 0, i32 3
  store i16 0, ptr %33, align 8
  %34 = load ptr, ptr %3, align 8
  %35 = getelementptr inbounds %struct.slot, ptr %34, i32 0, i32 1
  %36 = call i32 @pthread_cond_broadcast(ptr noundef %35) #6
  %37 = load ptr, ptr %3, align 8
  %38 = getelementptr inbounds %struct.slot, ptr %37, i32 0, i32 0
  %39 = call i32 @pthread_mutex_unlock(ptr noundef %38) #6
  %40 = load i32, ptr %6, align 4
  %41 = icmp ne i32 %40, 0
  br i1 %41, label %42, label %43

42:                                               ; preds = %24
  br label %49

43:                                               ; preds = %24
  %44 = load i64, ptr %5, align 8
  %45 = load i64, ptr %5, align 8
  %46 = mul nsw i64 %44, %45
  call void @pg_out(i64 noundef %46)
  %47 = load i64, ptr %4, align 8
  %48 = add nsw i64 %47, 1
  store i64 %48, ptr %4, align 8
  br label %8

49:                                               ; preds = %42
  %50 = load i64, ptr %4, align 8
  %51 = inttoptr i64 %50 to ptr
  call void @pthread_exit(ptr noundef %51) #7
  unreachable
}

declare i32 @pthread_join(i64 noundef, ptr noundef) #3

declare void @pg_out(i64 noundef) #3

; Function Attrs: nounwind
declare void @free(ptr noundef) #2

declare i64 @pg_in_len() #3

; Function Attrs: noinline nounwind optnone uwtable
define internal void @hand_over(ptr noundef %0, i64 noundef %1, i16 noundef signext %2) #0 {
  %4 = alloca ptr, align 8
  %5 = alloca i64, align 8
  %6 = alloca i16, align 2
  store ptr %0, ptr %4, align 8
  store i64 %1, ptr %5, align 8
  store i16 %2, ptr %6, align 2
  %7 = load ptr, ptr %4, align 8
  %8 = getelementptr inbounds %struct.slot, ptr %7, i32 0, i32 0
  %9 = call i32 @pthread_mutex_lock(ptr noundef %8) #6
  br label %10

10:                                               ; preds = %15, %3
  %11 = load ptr, ptr %4, align 8
  %12 = getelementptr inbounds %struct.slot, ptr %11, i32 0, i32 3
  %13 = load i16, ptr %12, align 8
  %14 = icmp ne i16 %13, 0
  br i1 %14, label %15, label %21

15:                                               ; preds = %10
  %16 = load ptr, ptr %4, align 8
  %17 = getelementptr inbounds %struct.slot, ptr %16, i32 0, i32 1
  %18 = load ptr, ptr %4, align 8
  %19 = getelementptr inbounds %struct.slot, ptr %18, i32 0, i32 0
  %20 = call i32 @pthread_cond_wait(ptr noundef %17, ptr noundef %19)
  br label %10, !llvm.loop !9

21:                                               ; preds = %10
  %22 = load i64, ptr %5, align 8
  %23 = load ptr, ptr %4, align 8
  %24 = getelementptr inbounds %struct.slot, ptr %23, i32 0, i32 2
  store i64 %22, ptr %24, align 8
  %25 = load ptr, ptr %4, align 8
  %26 = getelementptr inbounds %struct.slot, ptr %25, i32 0, i32 3
  store i16 1, ptr %26, align 8
  %27 = load i16, ptr %6, align 2
  %28 = load ptr, ptr %4, align 8
  %29 = getelementptr inbounds %struct.slot, ptr %28, i32 0, i32 4
  store i16 %27, ptr %29, align 2
  %30 = load ptr, ptr %4, align 8
  %31 = getelementptr inbounds %struct.slot, ptr %30, i32 0, i32 1
  %32 = call i32 @pthread_cond_broadcast(ptr noundef %31) #6
  %33 = load ptr, ptr %4, align 8
  %34 = getelementptr inbounds %struct.slot, ptr %33, i32 0, i32 0
  %35 = call i32 @pthread_mutex_unlock(ptr noundef %34) #6
  ret void
}

declare i64 @pg_in(i64 noundef) #3

; Function Attrs: nounwind
declare i32 @pthread_mutex_lock(ptr noundef) #2

declare i32 @pthread_cond_wait(ptr noundef, ptr noundef) #3

; Function Attrs: nounwind
declare i32 @pthread_cond_broadcast(ptr noundef) #2

; Function Attrs: nounwind
declare i32 @pthread_mutex_unlock(ptr noundef) #2

; Function Attrs: noreturn
declare void @pthread_exit(ptr noundef) #4

attributes #0 = { noinline nounwind optnone uwtable "frame-pointer"="all" "min-legal-vector-width"="0" "no-trapping-math"="true" "stack-protector-buffer-size"="8" "target-cpu"="x86-64" "target-features"="+cx8,+fxsr,+mmx,+sse,+sse2,+x87" "tune-cpu"="generic" }
attributes #1 = { nounwind allocsize(0) "frame-pointer"="all" "no-trapping-math"="true" "stack-protector-buffer-size"="8" "target-cpu"="x86-64" "target-features"="+cx8,+fxsr,+mmx,+sse,+sse2,+x87" "tune-cpu"="generic" }
attributes #2 = { nounwind "frame-pointer"="all" "no-trapping-math"="true" "stack-protector-buffer-size"="8" "target-cpu"="x86-64" "target-features"="+cx8,+fxsr,+mmx,+sse,+sse2,+x87" "tune-cpu"="generic" }
attributes #3 = { "frame-pointer"="all" "no-trapping-math"="true" "stack-protector-buffer-size"="8" "target-cpu"="x86-64" "target-features"="+cx8,+fxsr,+mmx,+sse,+sse2,+x87" "tune-cpu"="generic" }
attributes #4 = { noreturn "frame-pointer"="all" "no-trapping-math"="true" "stack-protector-buffer-size"="8" "target-cpu"="x86-64" "target-features"="+cx8,+fxsr,+mmx,+sse,+sse2,+x87" "tune-cpu"="generic" }
attributes #5 = { nounwind allocsize(0) }
attributes #6 = { nounwind }
attributes #7 = { noreturn }

!llvm.module.flags = !{!0, !1, !2, !3, !4}
!llvm.ident = !{!5}

!0 = !{i32 1, !"wchar_size", i32 4}
!1 = !{i32 8, !"PIC Level", i32 2}
!2 = !{i32 7, !"PIE Level", i32 2}
!3 = !{i32 7, !"uwtable", i32 2}
!4 = !{i32 7, !"frame-pointer", i32 2}
!5 = !{!"Debian clang version 16.0.6 (15~deb12u1)"}
!6 = distinct !{!6, !7}
!7 = !{!"llvm.loop.mustprogress"}
!8 = distinct !{!8, !7}
!9 = distinct !{!9, !7}
