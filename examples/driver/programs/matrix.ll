; ModuleID = 'matrix.c'
source_filename = "matrix.c"
target datalayout = "e-m:e-p270:32:32-p271:32:32-p272:64:64-i64:64-f80:128-n8:16:32:64-S128"
target triple = "x86_64-pc-linux-gnu"

%union.pthread_barrier_t = type { i64, [24 x i8] }

@a = internal global [4 x [4 x i64]] zeroinitializer, align 16
@barrier = internal global %union.pthread_barrier_t zeroinitializer, align 8
@cube = internal global [4 x [4 x i64]] zeroinitializer, align 16
@square = internal global [4 x [4 x i64]] zeroinitializer, align 16

; Function Attrs: noinline nounwind optnone uwtable
define dso_local i32 @main() #0 {
  %1 = alloca i32, align 4
  %2 = alloca i32, align 4
  %3 = alloca [2 x i64], align 16
  %4 = alloca i64, align 8
  %5 = alloca i32, align 4
  %6 = alloca i32, align 4
  store i32 0, ptr %1, align 4
  store i32 0, ptr %2, align 4
  br label %7

7:                                                ; preds = %22, %0
  %8 = load i32, ptr %2, align 4
  %9 = icmp slt i32 %8, 16
  br i1 %9, label %10, label %25

10:                                               ; preds = %7
  %11 = load i32, ptr %2, align 4
  %12 = sext i32 %11 to i64
  %13 = call i64 @pg_in(i64 noundef %12)
  %14 = load i32, ptr %2, align 4
  %15 = sdiv i32 %14, 4
  %16 = sext i32 %15 to i64
  %17 = getelementptr inbounds [4 x [4 x i64]], ptr @a, i64 0, i64 %16
  %18 = load i32, ptr %2, align 4
  %19 = srem i32 %18, 4
  %20 = sext i32 %19 to i64
  %21 = getelementptr inbounds [4 x i64], ptr %17, i64 0, i64 %20
  store i64 %13, ptr %21, align 8
  br label %22

22:                                               ; preds = %10
  %23 = load i32, ptr %2, align 4
  %24 = add nsw i32 %23, 1
  store i32 %24, ptr %2, align 4
  br label %7, !llvm.loop !6

25:                                               ; preds = %7
  %26 = call i32 @pthread_barrier_init(ptr noundef @barrier, ptr noundef null, i32 noundef 2) #3
  store i64 0, ptr %4, align 8
  br label %27

27:                                               ; preds = %36, %25
  %28 = load i64, ptr %4, align 8
  %29 = icmp slt i64 %28, 2
  br i1 %29, label %30, label %39

30:                                               ; preds = %27
  %31 = load i64, ptr %4, align 8
  %32 = getelementptr inbounds [2 x i64], ptr %3, i64 0, i64 %31
  %33 = load i64, ptr %4, align 8
  %34 = inttoptr i64 %33 to ptr
  %35 = call i32 @pthread_create(ptr noundef %32, ptr noundef null, ptr noundef @worker, ptr noundef %34) #3
  br label %36

36:                                               ; preds = %30
  %37 = load i64, ptr %4, align 8
  %38 = add nsw i64 %37, 1
  store i64 %38, ptr %4, align 8
  br label %27, !llvm.loop !8

39:                                               ; preds = %27
  store i32 0, ptr %5, align 4
  br label %40

40:                                               ; preds = %49, %39
  %41 = load i32, ptr %5, align 4
  %42 = icmp slt i32 %41, 2
  br i1 %42, label %43, label %52

43:                                               ; preds = %40
  %44 = load i32, ptr %5, align 4
  %45 = sext i32 %44 to i64
  %46 = getelementptr inbounds [2 x i64], ptr %3, i64 0, i64 %45
  %47 = load i64, ptr %46, align 8
  %48 = call i32 @pthread_join(i64 noundef %47, ptr noundef null)
  br label %49

49:                                               ; preds = %43
  %50 = load i32, ptr %5, align 4
  %51 = add nsw i32 %50, 1
  store i32 %51, ptr %5, align 4
  br label %40, !llvm.loop !9

52:                                               ; preds = %40
  store i32 0, ptr %6, align 4
  br label %53

53:                                               ; preds = %64, %52
  %54 = load i32, ptr %6, align 4
  %55 = icmp slt i32 %54, 4
  br i1 %55, label %56, label %67

56:                                               ; preds = %53
  %57 = load i32, ptr %6, align 4
  %58 = sext i32 %57 to i64
  %59 = getelementptr inbounds [4 x [4 x i64]], ptr @cube, i64 0, i64 %58
  %60 = load i32, ptr %6, align 4
  %61 = sext i32 %60 to i64
  %62 = getelementptr inbounds [4 x i64], ptr %59, i64 0, i64 %61
  %63 = load i64, ptr %62, align 8
  call void @pg_out(i64 noundef %63)
  br label %64

64:                                               ; preds = %56
  %65 = load i32, ptr %6, align 4
  %66 = add nsw i32 %65, 1
  store i32 %66, ptr %6, align 4
  br label %53, !llvm.loop !10

67:                                               ; preds = %53
  ret i32 0
}

declare i64 @pg_in(i64 noundef) #1

; Function Attrs: nounwind
declare i32 @pthread_barrier_init(ptr noundef, ptr noundef, i32 noundef) #2

; Function Attrs: nounwind
declare i32 @pthread_create(ptr noundef, ptr noundef, ptr noundef, ptr noundef) #2

; Function Attrs: noinline nounwind optnone uwtable
define internal ptr @worker(ptr noundef %0) #0 {
  %2 = alloca ptr, align 8
  store ptr %0, ptr %2, align 8
  %3 = load ptr, ptr %2, align 8
  %4 = ptrtoint ptr %3 to i64
  %5 = trunc i64 %4 to i32
  call void @product(ptr noundef @square, ptr noundef @a, ptr noundef @a, i32 noundef %5)
  %6 = call i32 @pthread_barrier_wait(ptr noundef @barrier) #3
  %7 = load ptr, ptr %2, align 8
  %8 = ptrtoint ptr %7 to i64
  %9 = trunc i64 %8 to i32
  call void @product(ptr noundef @cube, ptr noundef @square, ptr noundef @a, i32 noundef %9)
  ret ptr null
}

declare i32 @pthread_join(i64 noundef, ptr noundef) #1

declare void @pg_out(i64 noundef) #1

; Function Attrs: noinline nounwind optnone uwtable
define internal void @product(ptr noundef %0, ptr noundef %1, ptr noundef %2, i32 noundef %3) #0 {
  %5 = alloca ptr, align 8
  %6 = alloca ptr, align 8
  %7 = alloca ptr, align 8
  %8 = alloca i32, align 4
  %9 = alloca i32, align 4
  %10 = alloca i32, align 4
  %11 = alloca i64, align 8
  %12 = alloca i32, align 4
  store ptr %0, ptr %5, align 8
  store ptr %1, ptr %6, align 8
  store ptr %2, ptr %7, align 8
  store i32 %3, ptr %8, align 4
  %13 = load i32, ptr %8, align 4
  store i32 %13, ptr %9, align 4
  br label %14

14:                                               ; preds = %61, %4
  %15 = load i32, ptr %9, align 4
  %16 = icmp slt i32 %15, 4
  br i1 %16, label %17, label %64

17:                                               ; preds = %14
  store i32 0, ptr %10, align 4
  br label %18

18:                                               ; preds = %57, %17
  %19 = load i32, ptr %10, align 4
  %20 = icmp slt i32 %19, 4
  br i1 %20, label %21, label %60

21:                                               ; preds = %18
  store i64 0, ptr %11, align 8
  store i32 0, ptr %12, align 4
  br label %22

22:                                               ; preds = %45, %21
  %23 = load i32, ptr %12, align 4
  %24 = icmp slt i32 %23, 4
  br i1 %24, label %25, label %48

25:                                               ; preds = %22
  %26 = load ptr, ptr %6, align 8
  %27 = load i32, ptr %9, align 4
  %28 = sext i32 %27 to i64
  %29 = getelementptr inbounds [4 x i64], ptr %26, i64 %28
  %30 = load i32, ptr %12, align 4
  %31 = sext i32 %30 to i64
  %32 = getelementptr inbounds [4 x i64], ptr %29, i64 0, i64 %31
  %33 = load i64, ptr %32, align 8
  %34 = load ptr, ptr %7, align 8
  %35 = load i32, ptr %12, align 4
  %36 = sext i32 %35 to i64
  %37 = getelementptr inbounds [4 x i64], ptr %34, i64 %36
  %38 = load i32, ptr %10, align 4
  %39 = sext i32 %38 to i64
  %40 = getelementptr inbounds [4 x i64], ptr %37, i64 0, i64 %39
  %41 = load i64, ptr %40, align 8
  %42 = mul nsw i64 %33, %41
  %43 = load i64, ptr %11, align 8
  %44 = add nsw i64 %43, %42
  store i64 %44, ptr %11, align 8
  br label %45

45:                                               ; preds = %25
  %46 = load i32, ptr %12, align 4
  %47 = add nsw i32 %46, 1
  store i32 %47, ptr %12, align 4
  br label %22, !llvm.loop !11

48:                                               ; preds = %22
  %49 = load i64, ptr %11, align 8
  %50 = load ptr, ptr %5, align 8
  %51 = load i32, ptr %9, align 4
  %52 = sext i32 %51 to i64
  %53 = getelementptr inbounds [4 x i64], ptr %50, i64 %52
  %54 = load i32, ptr %10, align 4
  %55 = sext i32 %54 to i64
  %56 = getelementptr inbounds [4 x i64], ptr %53, i64 0, i64 %55
  store i64 %49, ptr %56, align 8
  br label %57

57:                                               ; preds = %48
  %58 = load i32, ptr %10, align 4
  %59 = add nsw i32 %58, 1
  store i32 %59, ptr %10, align 4
  br label %18, !llvm.loop !12

60:                                               ; preds = %18
  br label %61

61:                                               ; preds = %60
  %62 = load i32, ptr %9, align 4
  %63 = add nsw i32 %62, 2
  store i32 %63, ptr %9, align 4
  br label %14, !llvm.loop !13

64:                                               ; preds = %14
  ret void
}

; Function Attrs: nounwind
declare i32 @pthread_barrier_wait(ptr noundef) #2

attributes #0 = { noinline nounwind optnone uwtable "frame-pointer"="all" "min-legal-vector-width"="0" "no-trapping-math"="true" "stack-protector-buffer-size"="8" "target-cpu"="x86-64" "target-features"="+cx8,+fxsr,+mmx,+sse,+sse2,+x87" "tune-cpu"="generic" }
attributes #1 = { "frame-pointer"="all" "no-trapping-math"="true" "stack-protector-buffer-size"="8" "target-cpu"="x86-64" "target-features"="+cx8,+fxsr,+mmx,+sse,+sse2,+x87" "tune-cpu"="generic" }
attributes #2 = { nounwind "frame-pointer"="all" "no-trapping-math"="true" "stack-protector-buffer-size"="8" "target-cpu"="x86-64" "target-features"="+cx8,+fxsr,+mmx,+sse,+sse2,+x87" "tune-cpu"="generic" }
attributes #3 = { nounwind }

!llvm.module.flags = !{!0, !1, !2, !3, !4}
!llvm.ident = !{!5}

!0 = !{i32 1, !"wchar_size", i32 4}
!1 = !{i32 8, !"PIC Level", i32 2}
!2 = !{i32 7, !"PIE Level", i32 2}
!3 = !{i32 7, !"uwtable", i32 2}
!4 = !{i32 7, !"frame-pointer", i32 2}
!5 = !{!"Debian clang version 16.0.6 (15~deb12u1)"}
!6 = distinct !{!6, !7}
!7 = !{!"llvm.loop.mustprogress"}
!8 = distinct !{!8, !7}
!9 = distinct !{!9, !7}
!10 = distinct !{!10, !7}
!11 = distinct !{!11, !7}
!12 = distinct !{!12, !7}
!13 = distinct !{!13, !7}
