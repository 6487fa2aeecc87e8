; ModuleID = 'prefix_sums.c'
source_filename = "prefix_sums.c"
target datalayout = "e-m:e-p270:32:32-p271:32:32-p272:64:64-i64:64-f80:128-n8:16:32:64-S128"
target triple = "x86_64-pc-linux-gnu"

%union.pthread_barrier_t = type { i64, [24 x i8] }

@barrier = internal global %union.pthread_barrier_t zeroinitializer, align 8
@sums = internal global [512 x i64] zeroinitializer, align 16
@totals = internal global [4 x i64] zeroinitializer, align 16

; Function Attrs: noinline nounwind optnone uwtable
define dso_local i32 @main() #0 {
  %1 = alloca i32, align 4
  %2 = alloca [4 x i64], align 16
  %3 = alloca i64, align 8
  %4 = alloca i32, align 4
  %5 = alloca i64, align 8
  store i32 0, ptr %1, align 4
  %6 = call i32 @pthread_barrier_init(ptr noundef @barrier, ptr noundef null, i32 noundef 4) #3
  store i64 0, ptr %3, align 8
  br label %7

7:                                                ; preds = %16, %0
  %8 = load i64, ptr %3, align 8
  %9 = icmp slt i64 %8, 4
  br i1 %9, label %10, label %19

10:                                               ; preds = %7
  %11 = load i64, ptr %3, align 8
  %12 = getelementptr inbounds [4 x i64], ptr %2, i64 0, i64 %11
  %13 = load i64, ptr %3, align 8
  %14 = inttoptr i64 %13 to ptr
  %15 = call i32 @pthread_create(ptr noundef %12, ptr noundef null, ptr noundef @worker, ptr noundef %14) #3
  br label %16

16:                                               ; preds = %10
  %17 = load i64, ptr %3, align 8
  %18 = add nsw i64 %17, 1
  store i64 %18, ptr %3, align 8
  br label %7, !llvm.loop !6

19:                                               ; preds = %7
  store i32 0, ptr %4, align 4
  br label %20

20:                                               ; preds = %29, %19
  %21 = load i32, ptr %4, align 4
  %22 = icmp slt i32 %21, 4
  br i1 %22, label %23, label %32

23:                                               ; preds = %20
  %24 = load i32, ptr %4, align 4
  %25 = sext i32 %24 to i64
  %26 = getelementptr inbounds [4 x i64], ptr %2, i64 0, i64 %25
  %27 = load i64, ptr %26, align 8
  %28 = call i32 @pthread_join(i64 noundef %27, ptr noundef null)
  br label %29

29:                                               ; preds = %23
  %30 = load i32, ptr %4, align 4
  %31 = add nsw i32 %30, 1
  store i32 %31, ptr %4, align 4
  br label %20, !llvm.loop !8

32:                                               ; preds = %20
  store i64 0, ptr %5, align 8
  br label %33

33:                                               ; preds = %41, %32
  %34 = load i64, ptr %5, align 8
  %35 = call i64 @pg_in_len()
  %36 = icmp slt i64 %34, %35
  br i1 %36, label %37, label %44

37:                                               ; preds = %33
  %38 = load i64, ptr %5, align 8
  %39 = getelementptr inbounds [512 x i64], ptr @sums, i64 0, i64 %38
  %40 = load i64, ptr %39, align 8
  call void @pg_out(i64 noundef %40)
  br label %41

41:                                               ; preds = %37
  %42 = load i64, ptr %5, align 8
  %43 = add nsw i64 %42, 1
  store i64 %43, ptr %5, align 8
  br label %33, !llvm.loop !9

44:                                               ; preds = %33
  ret i32 0
}

; Function Attrs: nounwind
declare i32 @pthread_barrier_init(ptr noundef, ptr noundef, i32 noundef) #1

; Function Attrs: nounwind
declare i32 @pthread_create(ptr noundef, ptr noundef, ptr noundef, ptr noundef) #1

; Function Attrs: noinline nounwind optnone uwtable
define internal ptr @worker(ptr noundef %0) #0 {
  %2 = alloca ptr, align 8
  %3 = alloca i64, align 8
  %4 = alloca i64, align 8
  %5 = alloca i64, align 8
  %6 = alloca i64, align 8
  %7 = alloca i64, align 8
  %8 = alloca i64, align 8
  %9 = alloca i64, align 8
  %10 = alloca i64, align 8
  %11 = alloca i64, align 8
  store ptr %0, ptr %2, align 8
  %12 = load ptr, ptr %2, align 8
  %13 = ptrtoint ptr %12 to i64
  store i64 %13, ptr %3, align 8
  %14 = call i64 @pg_in_len()
  store i64 %14, ptr %4, align 8
  %15 = load i64, ptr %4, align 8
  %16 = load i64, ptr %3, align 8
  %17 = mul nsw i64 %15, %16
  %18 = sdiv i64 %17, 4
  store i64 %18, ptr %5, align 8
  %19 = load i64, ptr %4, align 8
  %20 = load i64, ptr %3, align 8
  %21 = add nsw i64 %20, 1
  %22 = mul nsw i64 %19, %21
  %23 = sdiv i64 %22, 4
  store i64 %23, ptr %6, align 8
  store i64 0, ptr %7, align 8
  %24 = load i64, ptr %5, align 8
  store i64 %24, ptr %8, align 8
  br label %25

25:                                               ; preds = %36, %1
  %26 = load i64, ptr %8, align 8
  %27 = load i64, ptr %6, align 8
  %28 = icmp slt i64 %26, %27
  br i1 %28, label %29, label %39

29:                                               ; preds = %25
  %30 = load i64, ptr %8, align 8
  %31 = call i64 @pg_in(i64 noundef %30)
  %32 = load i64, ptr %7, align 8
  %33 = add nsw i64 %32, %31
  store i64 %33, ptr %7, align 8
  %34 = load i64, ptr %8, align 8
  %35 = getelementptr inbounds [512 x i64], ptr @sums, i64 0, i64 %34
  store i64 %33, ptr %35, align 8
  br label %36

36:                                               ; preds = %29
  %37 = load i64, ptr %8, align 8
  %38 = add nsw i64 %37, 1
  store i64 %38, ptr %8, align 8
  br label %25, !llvm.loop !10

39:                                               ; preds = %25
  %40 = load i64, ptr %7, align 8
  %41 = load i64, ptr %3, align 8
  %42 = getelementptr inbounds [4 x i64], ptr @totals, i64 0, i64 %41
  store i64 %40, ptr %42, align 8
  %43 = call i32 @pthread_barrier_wait(ptr noundef @barrier) #3
  store i64 0, ptr %9, align 8
  store i64 0, ptr %10, align 8
  br label %44

44:                                               ; preds = %54, %39
  %45 = load i64, ptr %10, align 8
  %46 = load i64, ptr %3, align 8
  %47 = icmp slt i64 %45, %46
  br i1 %47, label %48, label %57

48:                                               ; preds = %44
  %49 = load i64, ptr %10, align 8
  %50 = getelementptr inbounds [4 x i64], ptr @totals, i64 0, i64 %49
  %51 = load i64, ptr %50, align 8
  %52 = load i64, ptr %9, align 8
  %53 = add nsw i64 %52, %51
  store i64 %53, ptr %9, align 8
  br label %54

54:                                               ; preds = %48
  %55 = load i64, ptr %10, align 8
  %56 = add nsw i64 %55, 1
  store i64 %56, ptr %10, align 8
  br label %44, !llvm.loop !11

57:                                               ; preds = %44
  %58 = load i64, ptr %5, align 8
  store i64 %58, ptr %11, align 8
  br label %59

59:                                               ; preds = %69, %57
  %60 = load i64, ptr %11, align 8
  %61 = load i64, ptr %6, align 8
  %62 = icmp slt i64 %60, %61
  br i1 %62, label %63, label %72

63:                                               ; preds = %59
  %64 = load i64, ptr %9, align 8
  %65 = load i64, ptr %11, align 8
  %66 = getelementptr inbounds [512 x i64], ptr @sums, i64 0, i64 %65
  %67 = load i64, ptr %66, align 8
  %68 = add nsw i64 %67, %64
  store i64 %68, ptr %66, align 8
  br label %69

69:                                               ; preds = %63
  %70 = load i64, ptr %11, align 8
  %71 = add nsw i64 %70, 1
  store i64 %71, ptr %11, align 8
  br label %59, !llvm.loop !12

72:                                               ; preds = %59
  ret ptr null
}

declare i32 @pthread_join(i64 noundef, ptr noundef) #2

declare i64 @pg_in_len() #2

declare void @pg_out(i64 noundef) #2

declare i64 @pg_in(i64 noundef) #2

; Function Attrs: nounwind
declare i32 @pthread_barrier_wait(ptr noundef) #1

attributes #0 = { noinline nounwind optnone uwtable "frame-pointer"="all" "min-legal-vector-width"="0" "no-trapping-math"="true" "stack-protector-buffer-size"="8" "target-cpu"="x86-64" "target-features"="+cx8,+fxsr,+mmx,+sse,+sse2,+x87" "tune-cpu"="generic" }
attributes #1 = { nounwind "frame-pointer"="all" "no-trapping-math"="true" "stack-protector-buffer-size"="8" "target-cpu"="x86-64" "target-features"="+cx8,+fxsr,+mmx,+sse,+sse2,+x87" "tune-cpu"="generic" }
attributes #2 = { "frame-pointer"="all" "no-trapping-math"="true" "stack-protector-buffer-size"="8" "target-cpu"="x86-64" "target-features"="+cx8,+fxsr,+mmx,+sse,+sse2,+x87" "tune-cpu"="generic" }
attributes #3 = { nounwind }

!llvm.module.flags = !{!0, !1, !2, !3, !4}
!llvm.ident = !{!5}

!0 = !{i32 1, !"wchar_size", i32 4}
!1 = !{i32 8, !"PIC Level", i32 2}
!2 = !{i32 7, !"PIE Level", i32 2}
!3 = !{i32 7, !"uwtable", i32 2}
!4 = !{i32 7, !"frame-pointer", i32 2}
!5 = !{!"Debian clang version 16.0.6 (15~deb12u1)"}
!6 = distinct !{!6, !7}
!7 = !{!"llvm.loop.mustprogress"}
!8 = distinct !{!8, !7}
!9 = distinct !{!9, !7}
!10 = distinct !{!10, !7}
!11 = distinct !{!11, !7}
!12 = distinct !{!12, !7}
