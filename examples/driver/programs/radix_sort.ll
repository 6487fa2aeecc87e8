; ModuleID = 'radix_sort.c'
source_filename = "radix_sort.c"
target datalayout = "e-m:e-p270:32:32-p271:32:32-p272:64:64-i64:64-f80:128-n8:16:32:64-S128"
target triple = "x86_64-pc-linux-gnu"

%union.pthread_barrier_t = type { i64, [24 x i8] }

@count = internal global i64 0, align 8
@from = internal global ptr null, align 8
@to = internal global ptr null, align 8
@barrier = internal global %union.pthread_barrier_t zeroinitializer, align 8
@places = internal global [3 x [16 x i64]] zeroinitializer, align 16

; Function Attrs: noinline nounwind optnone uwtable
define dso_local i32 @main() #0 {
  %1 = alloca i32, align 4
  %2 = alloca i64, align 8
  %3 = alloca [3 x i64], align 16
  %4 = alloca i64, align 8
  %5 = alloca i32, align 4
  %6 = alloca i64, align 8
  store i32 0, ptr %1, align 4
  %7 = call i64 @pg_in_len()
  store i64 %7, ptr @count, align 8
  %8 = load i64, ptr @count, align 8
  %9 = mul i64 %8, 8
  %10 = call noalias ptr @malloc(i64 noundef %9) #4
  store ptr %10, ptr @from, align 8
  %11 = load i64, ptr @count, align 8
  %12 = mul i64 %11, 8
  %13 = call noalias ptr @malloc(i64 noundef %12) #4
  store ptr %13, ptr @to, align 8
  store i64 0, ptr %2, align 8
  br label %14

14:                                               ; preds = %25, %0
  %15 = load i64, ptr %2, align 8
  %16 = load i64, ptr @count, align 8
  %17 = icmp slt i64 %15, %16
  br i1 %17, label %18, label %28

18:                                               ; preds = %14
  %19 = load i64, ptr %2, align 8
  %20 = call i64 @pg_in(i64 noundef %19)
  %21 = and i64 %20, 65535
  %22 = load ptr, ptr @from, align 8
  %23 = load i64, ptr %2, align 8
  %24 = getelementptr inbounds i64, ptr %22, i64 %23
  store i64 %21, ptr %24, align 8
  br label %25

25:                                               ; preds = %18
  %26 = load i64, ptr %2, align 8
  %27 = add nsw i64 %26, 1
  store i64 %27, ptr %2, align 8
  br label %14, !llvm.loop !6

28:                                               ; preds = %14
  %29 = call i32 @pthread_barrier_init(ptr noundef @barrier, ptr noundef null, i32 noundef 3) #5
  store i64 0, ptr %4, align 8
  br label %30

30:                                               ; preds = %39, %28
  %31 = load i64, ptr %4, align 8
  %32 = icmp slt i64 %31, 3
  br i1 %32, label %33, label %42

33:                                               ; preds = %30
  %34 = load i64, ptr %4, align 8
  %35 = getelementptr inbounds [3 x i64], ptr %3, i64 0, i64 %34
  %36 = load i64, ptr %4, align 8
  %37 = inttoptr i64 %36 to ptr
  %38 = call i32 @pthread_create(ptr noundef %35, ptr noundef null, ptr noundef @sort, ptr noundef %37) #5
  br label %39

39:                                               ; preds = %33
  %40 = load i64, ptr %4, align 8
  %41 = add nsw i64 %40, 1
  store i64 %41, ptr %4, align 8
  br label %30, !llvm.loop !8

42:                                               ; preds = %30
  store i32 0, ptr %5, align 4
  br label %43

43:                                               ; preds = %52, %42
  %44 = load i32, ptr %5, align 4
  %45 = icmp slt i32 %44, 3
  br i1 %45, label %46, label %55

46:                                               ; preds = %43
  %47 = load i32, ptr %5, align 4
  %48 = sext i32 %47 to i64
  %49 = getelementptr inbounds [3 x i64], ptr %3, i64 0, i64 %48
  %50 = load i64, ptr %49, align 8
  %51 = call i32 @pthread_join(i64 noundef %50, ptr noundef null)
  br label %52

52:                                               ; preds = %46
  %53 = load i32, ptr %5, align 4
  %54 = add nsw i32 %53, 1
  store i32 %54, ptr %5, align 4
  br label %43, !llvm.loop !9

55:                                               ; preds = %43
  store i64 0, ptr %6, align 8
  br label %56

56:                                               ; preds = %65, %55
  %57 = load i64, ptr %6, align 8
  %58 = load i64, ptr @count, align 8
  %59 = icmp slt i64 %57, %58
  br i1 %59, label %60, label %68

60:                                               ; preds = %56
  %61 = load ptr, ptr @from, align 8
  %62 = load i64, ptr %6, align 8
  %63 = getelementptr inbounds i64, ptr %61, i64 %62
  %64 = load i64, ptr %63, align 8
  call void @pg_out(i64 noundef %64)
  br label %65

65:                                               ; preds = %60
  %66 = load i64, ptr %6, align 8
  %67 = add nsw i64 %66, 1
  store i64 %67, ptr %6, align 8
  br label %56, !llvm.loop !10

68:                                               ; preds = %56
  ret i32 0
}

declare i64 @pg_in_len() #1

; Function Attrs: nounwind allocsize(0)
declare noalias ptr @malloc(i64 noundef) #2

declare i64 @pg_in(i64 noundef) #1

; Function Attrs: nounwind
declare i32 @pthread_barrier_init(ptr noundef, ptr noundef, i32 noundef) #3

; Function Attrs: nounwind
declare i32 @pthread_create(ptr noundef, ptr noundef, ptr noundef, ptr noundef) #3

; Function Attrs: noinline nounwind optnone uwtable
define internal ptr @sort(ptr noundef %0) #0 {
  %2 = alloca ptr, align 8
  %3 = alloca i64, align 8
  %4 = alloca i64, align 8
  %5 = alloca i64, align 8
  %6 = alloca i32, align 4
  %7 = alloca i64, align 8
  %8 = alloca ptr, align 8
  store ptr %0, ptr %2, align 8
  %9 = load ptr, ptr %2, align 8
  %10 = ptrtoint ptr %9 to i64
  store i64 %10, ptr %3, align 8
  %11 = load i64, ptr @count, align 8
  %12 = load i64, ptr %3, align 8
  %13 = mul nsw i64 %11, %12
  %14 = sdiv i64 %13, 3
  store i64 %14, ptr %4, align 8
  %15 = load i64, ptr @count, align 8
  %16 = load i64, ptr %3, align 8
  %17 = add nsw i64 %16, 1
  %18 = mul nsw i64 %15, %17
  %19 = sdiv i64 %18, 3
  store i64 %19, ptr %5, align 8
  store i32 0, ptr %6, align 4
  br label %20

20:                                               ; preds = %69, %1
  %21 = load i32, ptr %6, align 4
  %22 = icmp slt i32 %21, 4
  br i1 %22, label %23, label %72

23:                                               ; preds = %20
  %24 = load i64, ptr %3, align 8
  %25 = load i64, ptr %4, align 8
  %26 = load i64, ptr %5, align 8
  %27 = load i32, ptr %6, align 4
  call void @count_digits(i64 noundef %24, i64 noundef %25, i64 noundef %26, i32 noundef %27)
  %28 = call i32 @pthread_barrier_wait(ptr noundef @barrier) #5
  %29 = icmp eq i32 %28, -1
  br i1 %29, label %30, label %31

30:                                               ; preds = %23
  call void @find_places()
  br label %31

31:                                               ; preds = %30, %23
  %32 = call i32 @pthread_barrier_wait(ptr noundef @barrier) #5
  %33 = load i64, ptr %4, align 8
  store i64 %33, ptr %7, align 8
  br label %34

34:                                               ; preds = %57, %31
  %35 = load i64, ptr %7, align 8
  %36 = load i64, ptr %5, align 8
  %37 = icmp slt i64 %35, %36
  br i1 %37, label %38, label %60

38:                                               ; preds = %34
  %39 = load ptr, ptr @from, align 8
  %40 = load i64, ptr %7, align 8
  %41 = getelementptr inbounds i64, ptr %39, i64 %40
  %42 = load i64, ptr %41, align 8
  %43 = load ptr, ptr @to, align 8
  %44 = load i64, ptr %3, align 8
  %45 = getelementptr inbounds [3 x [16 x i64]], ptr @places, i64 0, i64 %44
  %46 = load ptr, ptr @from, align 8
  %47 = load i64, ptr %7, align 8
  %48 = getelementptr inbounds i64, ptr %46, i64 %47
  %49 = load i64, ptr %48, align 8
  %50 = load i32, ptr %6, align 4
  %51 = call i32 @digit(i64 noundef %49, i32 noundef %50)
  %52 = sext i32 %51 to i64
  %53 = getelementptr inbounds [16 x i64], ptr %45, i64 0, i64 %52
  %54 = load i64, ptr %53, align 8
  %55 = add nsw i64 %54, 1
  store i64 %55, ptr %53, align 8
  %56 = getelementptr inbounds i64, ptr %43, i64 %54
  store i64 %42, ptr %56, align 8
  br label %57

57:                                               ; preds = %38
  %58 = load i64, ptr %7, align 8
  %59 = add nsw i64 %58, 1
  store i64 %59, ptr %7, align 8
  br label %34, !llvm.loop !11

60:                                               ; preds = %34
  %61 = call i32 @pthread_barrier_wait(ptr noundef @barrier) #5
  %62 = icmp eq i32 %61, -1
  br i1 %62, label %63, label %67

63:                                               ; preds = %60
  %64 = load ptr, ptr @from, align 8
  store ptr %64, ptr %8, align 8
  %65 = load ptr, ptr @to, align 8
  store ptr %65, ptr @from, align 8
  %66 = load ptr, ptr %8, align 8
  store ptr %66, ptr @to, align 8
  br label %67

67:                                               ; preds = %63, %60
  %68 = call i32 @pthread_barrier_wait(ptr noundef @barrier) #5
  br label %69

69:                                               ; preds = %67
  %70 = load i32, ptr %6, align 4
  %71 = add nsw i32 %70, 1
  store i32 %71, ptr %6, align 4
  br label %20, !llvm.loop !12

72:                                               ; preds = %20
  ret ptr null
}

declare i32 @pthread_join(i64 noundef, ptr noundef) #1

declare void @pg_out(i64 noundef) #1

; Function Attrs: noinline nounwind optnone uwtable
define internal void @count_digits(i64 noundef %0, i64 noundef %1, i64 noundef %2, i32 noundef %3) #0 {
  %5 = alloca i64, align 8
  %6 = alloca i64, align 8
  %7 = alloca i64, align 8
  %8 = alloca i32, align 4
  %9 = alloca i32, align 4
  %10 = alloca i64, align 8
  store i64 %0, ptr %5, align 8
  store i64 %1, ptr %6, align 8
  store i64 %2, ptr %7, align 8
  store i32 %3, ptr %8, align 4
  store i32 0, ptr %9, align 4
  br label %11

11:                                               ; preds = %20, %4
  %12 = load i32, ptr %9, align 4
  %13 = icmp slt i32 %12, 16
  br i1 %13, label %14, label %23

14:                                               ; preds = %11
  %15 = load i64, ptr %5, align 8
  %16 = getelementptr inbounds [3 x [16 x i64]], ptr @places, i64 0, i64 %15
  %17 = load i32, ptr %9, align 4
  %18 = sext i32 %17 to i64
  %19 = getelementptr inbounds [16 x i64], ptr %16, i64 0, i64 %18
  store i64 0, ptr %19, align 8
  br label %20

20:                                               ; preds = %14
  %21 = load i32, ptr %9, align 4
  %22 = add nsw i32 %21, 1
  store i32 %22, ptr %9, align 4
  br label %11, !llvm.loop !13

23:                                               ; preds = %11
  %24 = load i64, ptr %6, align 8
  store i64 %24, ptr %10, align 8
  br label %25

25:                                               ; preds = %42, %23
  %26 = load i64, ptr %10, align 8
  %27 = load i64, ptr %7, align 8
  %28 = icmp slt i64 %26, %27
  br i1 %28, label %29, label %45

29:                                               ; preds = %25
  %30 = load i64, ptr %5, align 8
  %31 = getelementptr inbounds [3 x [16 x i64]], ptr @places, i64 0, i64 %30
  %32 = load ptr, ptr @from, align 8
  %33 = load i64, ptr %10, align 8
  %34 = getelementptr inbounds i64, ptr %32, i64 %33
  %35 = load i64, ptr %34, align 8
  %36 = load i32, ptr %8, align 4
  %37 = call i32 @digit(i64 noundef %35, i32 noundef %36)
  %38 = sext i32 %37 to i64
  %39 = getelementptr inbounds [16 x i64], ptr %31, i64 0, i64 %38
  %40 = load i64, ptr %39, align 8
  %41 = add nsw i64 %40, 1
  store i64 %41, ptr %39, align 8
  br label %42

42:                                               ; preds = %29
  %43 = load i64, ptr %10, align 8
  %44 = add nsw i64 %43, 1
  store i64 %44, ptr %10, align 8
  br label %25, !llvm.loop !14

45:                                               ; preds = %25
  ret void
}

; Function Attrs: nounwind
declare i32 @pthread_barrier_wait(ptr noundef) #3

; Function Attrs: noinline nounwind optnone uwtable
define internal void @find_places() #0 {
  %1 = alloca i64, align 8
  %2 = alloca i32, align 4
  %3 = alloca i32, align 4
  %4 = alloca i64, align 8
  store i64 0, ptr %1, align 8
  store i32 0, ptr %2, align 4
  br label %5

5:                                                ; preds = %34, %0
  %6 = load i32, ptr %2, align 4
  %7 = icmp slt i32 %6, 16
  br i1 %7, label %8, label %37

8:                                                ; preds = %5
  store i32 0, ptr %3, align 4
  br label %9

9:                                                ; preds = %30, %8
  %10 = load i32, ptr %3, align 4
  %11 = icmp slt i32 %10, 3
  br i1 %11, label %12, label %33

12:                                               ; preds = %9
  %13 = load i32, ptr %3, align 4
  %14 = sext i32 %13 to i64
  %15 = getelementptr inbounds [3 x [16 x i64]], ptr @places, i64 0, i64 %14
  %16 = load i32, ptr %2, align 4
  %17 = sext i32 %16 to i64
  %18 = getelementptr inbounds [16 x i64], ptr %15, i64 0, i64 %17
  %19 = load i64, ptr %18, align 8
  store i64 %19, ptr %4, align 8
  %20 = load i64, ptr %1, align 8
  %21 = load i32, ptr %3, align 4
  %22 = sext i32 %21 to i64
  %23 = getelementptr inbounds [3 x [16 x i64]], ptr @places, i64 0, i64 %22
  %24 = load i32, ptr %2, align 4
  %25 = sext i32 %24 to i64
  %26 = getelementptr inbounds [16 x i64], ptr %23, i64 0, i64 %25
  store i64 %20, ptr %26, align 8
  %27 = load i64, ptr %4, align 8
  %28 = load i64, ptr %1, align 8
  %29 = add nsw i64 %28, %27
  store i64 %29, ptr %1, align 8
  br label %30

30:                                               ; preds = %12
  %31 = load i32, ptr %3, align 4
  %32 = add nsw i32 %31, 1
  store i32 %32, ptr %3, align 4
  br label %9, !llvm.loop !15

33:                                               ; preds = %9
  br label %34

34:                                               ; preds = %33
  %35 = load i32, ptr %2, align 4
  %36 = add nsw i32 %35, 1
  store i32 %36, ptr %2, align 4
  br label %5, !llvm.loop !16

37:                                               ; preds = %5
  ret void
}

; Function Attrs: noinline nounwind optnone uwtable
define internal i32 @digit(i64 noundef %0, i32 noundef %1) #0 {
  %3 = alloca i64, align 8
  %4 = alloca i32, align 4
  store i64 %0, ptr %3, align 8
  store i32 %1, ptr %4, align 4
  %5 = load i64, ptr %3, align 8
  %6 = load i32, ptr %4, align 4
  %7 = mul nsw i32 4, %6
  %8 = zext i32 %7 to i64
  %9 = lshr i64 %5, %8
  %10 = and i64 %9, 15
  %11 = trunc i64 %10 to i32
  ret i32 %11
}

attributes #0 = { noinline nounwind optnone uwtable "frame-pointer"="all" "min-legal-vector-width"="0" "no-trapping-math"="true" "stack-protector-buffer-size"="8" "target-cpu"="x86-64" "target-features"="+cx8,+fxsr,+mmx,+sse,+sse2,+x87" "tune-cpu"="generic" }
attributes #1 = { "frame-pointer"="all" "no-trapping-math"="true" "stack-protector-buffer-size"="8" "target-cpu"="x86-64" "target-features"="+cx8,+fxsr,+mmx,+sse,+sse2,+x87" "tune-cpu"="generic" }
attributes #2 = { nounwind allocsize(0) "frame-pointer"="all" "no-trapping-math"="true" "stack-protector-buffer-size"="8" "target-cpu"="x86-64" "target-features"="+cx8,+fxsr,+mmx,+sse,+sse2,+x87" "tune-cpu"="generic" }
attributes #3 = { nounwind "frame-pointer"="all" "no-trapping-math"="true" "stack-protector-buffer-size"="8" "target-cpu"="x86-64" "target-features"="+cx8,+fxsr,+mmx,+sse,+sse2,+x87" "tune-cpu"="generic" }
attributes #4 = { nounwind allocsize(0) }
attributes #5 = { nounwind }

!llvm.module.flags = !{!0, !1, !2, !3, !4}
!llvm.ident = !{!5}

!0 = !{i32 1, !"wchar_size", i32 4}
!1 = !{i32 8, !"PIC Level", i32 2}
!2 = !{i32 7, !"PIE Level", i32 2}
!3 = !{i32 7, !"uwtable", i32 2}
!4 = !{i32 7, !"frame-pointer", i32 2}
!5 = !{!"Debian clang version 16.0.6 (15~deb12u1)"}
!6 = distinct !{!6, !7}
!7 = !{!"llvm.loop.mustprogress"}
!8 = distinct !{!8, !7}
!9 = distinct !{!9, !7}
!10 = distinct !{!10, !7}
!11 = distinct !{!11, !7}
!12 = distinct !{!12, !7}
!13 = distinct !{!13, !7}
!14 = distinct !{!14, !7}
!15 = distinct !{!15, !7}
!16 = distinct !{!16, !7}
