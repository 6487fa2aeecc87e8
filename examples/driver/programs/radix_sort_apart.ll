; ModuleID = 'radix_sort_apart.c'
source_filename = "radix_sort_apart.c"
target datalayout = "e-m:e-p270:32:32-p271:32:32-p272:64:64-i64:64-f80:128-n8:16:32:64-S128"
target triple = "x86_64-pc-linux-gnu"

%struct.block = type { i64, [512 x i64] }
%union.pthread_barrier_t = type { i64, [24 x i8] }

@first_even = internal global %struct.block zeroinitializer, align 8
@barrier = internal global %union.pthread_barrier_t zeroinitializer, align 8
@second_even = internal global %struct.block zeroinitializer, align 8
@third_even = internal global %struct.block zeroinitializer, align 8
@first_odd = internal global %struct.block zeroinitializer, align 8
@second_odd = internal global %struct.block zeroinitializer, align 8
@third_odd = internal global %struct.block zeroinitializer, align 8

; Function Attrs: noinline nounwind optnone uwtable
define dso_local i32 @main() #0 {
  %1 = alloca i32, align 4
  %2 = alloca i64, align 8
  %3 = alloca [3 x i64], align 16
  %4 = alloca i32, align 4
  %5 = alloca i64, align 8
  store i32 0, ptr %1, align 4
  store i64 0, ptr %2, align 8
  br label %6

6:                                                ; preds = %16, %0
  %7 = load i64, ptr %2, align 8
  %8 = call i64 @pg_in_len()
  %9 = icmp slt i64 %7, %8
  br i1 %9, label %10, label %19

10:                                               ; preds = %6
  %11 = load i64, ptr %2, align 8
  %12 = call i64 @pg_in(i64 noundef %11)
  %13 = and i64 %12, 65535
  %14 = load i64, ptr %2, align 8
  %15 = getelementptr inbounds [512 x i64], ptr getelementptr inbounds (%struct.block, ptr @first_even, i32 0, i32 1), i64 0, i64 %14
  store i64 %13, ptr %15, align 8
  br label %16

16:                                               ; preds = %10
  %17 = load i64, ptr %2, align 8
  %18 = add nsw i64 %17, 1
  store i64 %18, ptr %2, align 8
  br label %6, !llvm.loop !6

19:                                               ; preds = %6
  %20 = call i64 @pg_in_len()
  store i64 %20, ptr @first_even, align 8
  %21 = call i32 @pthread_barrier_init(ptr noundef @barrier, ptr noundef null, i32 noundef 3) #3
  %22 = getelementptr inbounds [3 x i64], ptr %3, i64 0, i64 0
  %23 = call i32 @pthread_create(ptr noundef %22, ptr noundef null, ptr noundef @sort_first, ptr noundef null) #3
  %24 = getelementptr inbounds [3 x i64], ptr %3, i64 0, i64 1
  %25 = call i32 @pthread_create(ptr noundef %24, ptr noundef null, ptr noundef @sort_second, ptr noundef null) #3
  %26 = getelementptr inbounds [3 x i64], ptr %3, i64 0, i64 2
  %27 = call i32 @pthread_create(ptr noundef %26, ptr noundef null, ptr noundef @sort_third, ptr noundef null) #3
  store i32 0, ptr %4, align 4
  br label %28

28:                                               ; preds = %37, %19
  %29 = load i32, ptr %4, align 4
  %30 = icmp slt i32 %29, 3
  br i1 %30, label %31, label %40

31:                                               ; preds = %28
  %32 = load i32, ptr %4, align 4
  %33 = sext i32 %32 to i64
  %34 = getelementptr inbounds [3 x i64], ptr %3, i64 0, i64 %33
  %35 = load i64, ptr %34, align 8
  %36 = call i32 @pthread_join(i64 noundef %35, ptr noundef null)
  br label %37

37:                                               ; preds = %31
  %38 = load i32, ptr %4, align 4
  %39 = add nsw i32 %38, 1
  store i32 %39, ptr %4, align 4
  br label %28, !llvm.loop !8

40:                                               ; preds = %28
  call void @append(ptr noundef @first_even, ptr noundef @second_even)
  call void @append(ptr noundef @first_even, ptr noundef @third_even)
  store i64 0, ptr %5, align 8
  br label %41

41:                                               ; preds = %49, %40
  %42 = load i64, ptr %5, align 8
  %43 = call i64 @pg_in_len()
  %44 = icmp slt i64 %42, %43
  br i1 %44, label %45, label %52

45:                                               ; preds = %41
  %46 = load i64, ptr %5, align 8
  %47 = getelementptr inbounds [512 x i64], ptr getelementptr inbounds (%struct.block, ptr @first_even, i32 0, i32 1), i64 0, i64 %46
  %48 = load i64, ptr %47, align 8
  call void @pg_out(i64 noundef %48)
  br label %49

49:                                               ; preds = %45
  %50 = load i64, ptr %5, align 8
  %51 = add nsw i64 %50, 1
  store i64 %51, ptr %5, align 8
  br label %41, !llvm.loop !9

52:                                               ; preds = %41
  ret i32 0
}

declare i64 @pg_in_len() #1

declare i64 @pg_in(i64 noundef) #1

; Function Attrs: nounwind
declare i32 @pthread_barrier_init(ptr noundef, ptr noundef, i32 noundef) #2

; Function Attrs: nounwind
declare i32 @pthread_create(ptr noundef, ptr noundef, ptr noundef, ptr noundef) #2

; Function Attrs: noinline nounwind optnone uwtable
define internal ptr @sort_first(ptr noundef %0) #0 {
  %2 = alloca ptr, align 8
  store ptr %0, ptr %2, align 8
  call void @sort(ptr noundef @first_even, ptr noundef @first_odd, i32 noundef 0)
  %3 = load ptr, ptr %2, align 8
  ret ptr %3
}

; Function Attrs: noinline nounwind optnone uwtable
define internal ptr @sort_second(ptr noundef %0) #0 {
  %2 = alloca ptr, align 8
  store ptr %0, ptr %2, align 8
  call void @sort(ptr noundef @second_even, ptr noundef @second_odd, i32 noundef 1)
  %3 = load ptr, ptr %2, align 8
  ret ptr %3
}

; Function Attrs: noinline nounwind optnone uwtable
define internal ptr @sort_third(ptr noundef %0) #0 {
  %2 = alloca ptr, align 8
  store ptr %0, ptr %2, align 8
  call void @sort(ptr noundef @third_even, ptr noundef @third_odd, i32 noundef 2)
  %3 = load ptr, ptr %2, align 8
  ret ptr %3
}

declare i32 @pthread_join(i64 noundef, ptr noundef) #1

; Function Attrs: noinline nounwind optnone uwtable
define internal void @append(ptr noundef %0, ptr noundef %1) #0 {
  %3 = alloca ptr, align 8
  %4 = alloca ptr, align 8
  %5 = alloca i64, align 8
  %6 = alloca i64, align 8
  store ptr %0, ptr %3, align 8
  store ptr %1, ptr %4, align 8
  %7 = load ptr, ptr %3, align 8
  %8 = getelementptr inbounds %struct.block, ptr %7, i32 0, i32 0
  %9 = load i64, ptr %8, align 8
  store i64 %9, ptr %5, align 8
  store i64 0, ptr %6, align 8
  br label %10

10:                                               ; preds = %27, %2
  %11 = load i64, ptr %6, align 8
  %12 = load ptr, ptr %4, align 8
  %13 = getelementptr inbounds %struct.block, ptr %12, i32 0, i32 0
  %14 = load i64, ptr %13, align 8
  %15 = icmp slt i64 %11, %14
  br i1 %15, label %16, label %30

16:                                               ; preds = %10
  %17 = load ptr, ptr %4, align 8
  %18 = getelementptr inbounds %struct.block, ptr %17, i32 0, i32 1
  %19 = load i64, ptr %6, align 8
  %20 = getelementptr inbounds [512 x i64], ptr %18, i64 0, i64 %19
  %21 = load i64, ptr %20, align 8
  %22 = load ptr, ptr %3, align 8
  %23 = getelementptr inbounds %struct.block, ptr %22, i32 0, i32 1
  %24 = load i64, ptr %5, align 8
  %25 = add nsw i64 %24, 1
  store i64 %25, ptr %5, align 8
  %26 = getelementptr inbounds [512 x i64], ptr %23, i64 0, i64 %24
  store i64 %21, ptr %26, align 8
  br label %27

27:                                               ; preds = %16
  %28 = load i64, ptr %6, align 8
  %29 = add nsw i64 %28, 1
  store i64 %29, ptr %6, align 8
  br label %10, !llvm.loop !10

30:                                               ; preds = %10
  %31 = load i64, ptr %5, align 8
  %32 = load ptr, ptr %3, align 8
  %33 = getelementptr inbounds %struct.block, ptr %32, i32 0, i32 0
  store i64 %31, ptr %33, align 8
  ret void
}

declare void @pg_out(i64 noundef) #1

; Function Attrs: noinline nounwind optnone uwtable
define internal void @sort(ptr noundef %0, ptr noundef %1, i32 noundef %2) #0 {
  %4 = alloca ptr, align 8
  %5 = alloca ptr, align 8
  %6 = alloca i32, align 4
  %7 = alloca i32, align 4
  store ptr %0, ptr %4, align 8
  store ptr %1, ptr %5, align 8
  store i32 %2, ptr %6, align 4
  store i32 0, ptr %7, align 4
  br label %8

8:                                                ; preds = %21, %3
  %9 = load i32, ptr %7, align 4
  %10 = icmp slt i32 %9, 4
  br i1 %10, label %11, label %24

11:                                               ; preds = %8
  %12 = load ptr, ptr %5, align 8
  %13 = load i32, ptr %6, align 4
  %14 = load i32, ptr %7, align 4
  call void @take_share(ptr noundef %12, ptr noundef @first_even, ptr noundef @second_even, ptr noundef @third_even, i32 noundef %13, i32 noundef %14)
  %15 = call i32 @pthread_barrier_wait(ptr noundef @barrier) #3
  %16 = load ptr, ptr %4, align 8
  %17 = load i32, ptr %6, align 4
  %18 = load i32, ptr %7, align 4
  %19 = add nsw i32 %18, 1
  call void @take_share(ptr noundef %16, ptr noundef @first_odd, ptr noundef @second_odd, ptr noundef @third_odd, i32 noundef %17, i32 noundef %19)
  %20 = call i32 @pthread_barrier_wait(ptr noundef @barrier) #3
  br label %21

21:                                               ; preds = %11
  %22 = load i32, ptr %7, align 4
  %23 = add nsw i32 %22, 2
  store i32 %23, ptr %7, align 4
  br label %8, !llvm.loop !11

24:                                               ; preds = %8
  ret void
}

; Function Attrs: noinline nounwind optnone uwtable
define internal void @take_share(ptr noundef %0, ptr noundef %1, ptr noundef %2, ptr noundef %3, i32 noundef %4, i32 noundef %5) #0 {
  %7 = alloca ptr, align 8
  %8 = alloca ptr, align 8
  %9 = alloca ptr, align 8
  %10 = alloca ptr, align 8
  %11 = alloca i32, align 4
  %12 = alloca i32, align 4
  %13 = alloca i32, align 4
  store ptr %0, ptr %7, align 8
  store ptr %1, ptr %8, align 8
  store ptr %2, ptr %9, align 8
  store ptr %3, ptr %10, align 8
  store i32 %4, ptr %11, align 4
  store i32 %5, ptr %12, align 4
  %14 = load ptr, ptr %7, align 8
  %15 = getelementptr inbounds %struct.block, ptr %14, i32 0, i32 0
  store i64 0, ptr %15, align 8
  %16 = load i32, ptr %11, align 4
  %17 = mul nsw i32 16, %16
  %18 = sdiv i32 %17, 3
  store i32 %18, ptr %13, align 4
  br label %19

19:                                               ; preds = %42, %6
  %20 = load i32, ptr %13, align 4
  %21 = load i32, ptr %11, align 4
  %22 = add nsw i32 %21, 1
  %23 = mul nsw i32 16, %22
  %24 = sdiv i32 %23, 3
  %25 = icmp slt i32 %20, %24
  br i1 %25, label %26, label %45

26:                                               ; preds = %19
  %27 = load ptr, ptr %7, align 8
  %28 = load ptr, ptr %8, align 8
  %29 = load i32, ptr %12, align 4
  %30 = load i32, ptr %13, align 4
  %31 = sext i32 %30 to i64
  call void @take(ptr noundef %27, ptr noundef %28, i32 noundef %29, i64 noundef %31)
  %32 = load ptr, ptr %7, align 8
  %33 = load ptr, ptr %9, align 8
  %34 = load i32, ptr %12, align 4
  %35 = load i32, ptr %13, align 4
  %36 = sext i32 %35 to i64
  call void @take(ptr noundef %32, ptr noundef %33, i32 noundef %34, i64 noundef %36)
  %37 = load ptr, ptr %7, align 8
  %38 = load ptr, ptr %10, align 8
  %39 = load i32, ptr %12, align 4
  %40 = load i32, ptr %13, align 4
  %41 = sext i32 %40 to i64
  call void @take(ptr noundef %37, ptr noundef %38, i32 noundef %39, i64 noundef %41)
  br label %42

42:                                               ; preds = %26
  %43 = load i32, ptr %13, align 4
  %44 = add nsw i32 %43, 1
  store i32 %44, ptr %13, align 4
  br label %19, !llvm.loop !12

45:                                               ; preds = %19
  ret void
}

; Function Attrs: nounwind
declare i32 @pthread_barrier_wait(ptr noundef) #2

; Function Attrs: noinline nounwind optnone uwtable
define internal void @take(ptr noundef %0, ptr noundef %1, i32 noundef %2, i64 noundef %3) #0 {
  %5 = alloca ptr, align 8
  %6 = alloca ptr, align 8
  %7 = alloca i32, align 4
  %8 = alloca i64, align 8
  %9 = alloca i64, align 8
  %10 = alloca i64, align 8
  store ptr %0, ptr %5, align 8
  store ptr %1, ptr %6, align 8
  store i32 %2, ptr %7, align 4
  store i64 %3, ptr %8, align 8
  %11 = load ptr, ptr %5, align 8
  %12 = getelementptr inbounds %struct.block, ptr %11, i32 0, i32 0
  %13 = load i64, ptr %12, align 8
  store i64 %13, ptr %9, align 8
  store i64 0, ptr %10, align 8
  br label %14

14:                                               ; preds = %45, %4
  %15 = load i64, ptr %10, align 8
  %16 = load ptr, ptr %6, align 8
  %17 = getelementptr inbounds %struct.block, ptr %16, i32 0, i32 0
  %18 = load i64, ptr %17, align 8
  %19 = icmp slt i64 %15, %18
  br i1 %19, label %20, label %48

20:                                               ; preds = %14
  %21 = load ptr, ptr %6, align 8
  %22 = getelementptr inbounds %struct.block, ptr %21, i32 0, i32 1
  %23 = load i64, ptr %10, align 8
  %24 = getelementptr inbounds [512 x i64], ptr %22, i64 0, i64 %23
  %25 = load i64, ptr %24, align 8
  %26 = load i32, ptr %7, align 4
  %27 = mul nsw i32 4, %26
  %28 = zext i32 %27 to i64
  %29 = lshr i64 %25, %28
  %30 = and i64 %29, 15
  %31 = load i64, ptr %8, align 8
  %32 = icmp eq i64 %30, %31
  br i1 %32, label %33, label %44

33:                                               ; preds = %20
  %34 = load ptr, ptr %6, align 8
  %35 = getelementptr inbounds %struct.block, ptr %34, i32 0, i32 1
  %36 = load i64, ptr %10, align 8
  %37 = getelementptr inbounds [512 x i64], ptr %35, i64 0, i64 %36
  %38 = load i64, ptr %37, align 8
  %39 = load ptr, ptr %5, align 8
  %40 = getelementptr inbounds %struct.block, ptr %39, i32 0, i32 1
  %41 = load i64, ptr %9, align 8
  %42 = add nsw i64 %41, 1
  store i64 %42, ptr %9, align 8
  %43 = getelementptr inbounds [512 x i64], ptr %40, i64 0, i64 %41
  store i64 %38, ptr %43, align 8
  br label %44

44:                                               ; preds = %33, %20
  br label %45

45:                                               ; preds = %44
  %46 = load i64, ptr %10, align 8
  %47 = add nsw i64 %46, 1
  store i64 %47, ptr %10, align 8
  br label %14, !llvm.loop !13

48:                                               ; preds = %14
  %49 = load i64, ptr %9, align 8
  %50 = load ptr, ptr %5, align 8
  %51 = getelementptr inbounds %struct.block, ptr %50, i32 0, i32 0
  store i64 %49, ptr %51, align 8
  ret void
}

attributes #0 = { noinline nounwind optnone uwtable "frame-pointer"="all" "min-legal-vector-width"="0" "no-trapping-math"="true" "stack-protector-buffer-size"="8" "target-cpu"="x86-64" "target-features"="+cx8,+fxsr,+mmx,+sse,+sse2,+x87" "tune-cpu"="generic" }
attributes #1 = { "frame-pointer"="all" "no-trapping-math"="true" "stack-protector-buffer-size"="8" "target-cpu"="x86-64" "target-features"="+cx8,+fxsr,+mmx,+sse,+sse2,+x87" "tune-cpu"="generic" }
attributes #2 = { nounwind "frame-pointer"="all" "no-trapping-math"="true" "stack-protector-buffer-size"="8" "target-cpu"="x86-64" "target-features"="+cx8,+fxsr,+mmx,+sse,+sse2,+x87" "tune-cpu"="generic" }
attributes #3 = { nounwind }

!llvm.module.flags = !{!0, !1, !2, !3, !4}
!llvm.ident = !{!5}

!0 = !{i32 1, !"wchar_size", i32 4}
!1 = !{i32 8, !"PIC Level", i32 2}
!2 = !{i32 7, !"PIE Level", i32 2}
!3 = !{i32 7, !"uwtable", i32 2}
!4 = !{i32 7, !"frame-pointer", i32 2}
!5 = !{!"Debian clang version 16.0.6 (15~deb12u1)"}
!6 = distinct !{!6, !7}
!7 = !{!"llvm.loop.mustprogress"}
!8 = distinct !{!8, !7}
!9 = distinct !{!9, !7}
!10 = distinct !{!10, !7}
!11 = distinct !{!11, !7}
!12 = distinct !{!12, !7}
!13 = distinct !{!13, !7}
