; ModuleID = 'extremes_apart.c'
source_filename = "extremes_apart.c"
target datalayout = "e-m:e-p270:32:32-p271:32:32-p272:64:64-i64:64-f80:128-n8:16:32:64-S128"
target triple = "x86_64-pc-linux-gnu"

%struct.result = type { i64, i64, i64 }

@numbers = internal global [512 x i64] zeroinitializer, align 16
@low = internal global %struct.result zeroinitializer, align 8
@high = internal global %struct.result zeroinitializer, align 8

; Function Attrs: noinline nounwind optnone uwtable
define dso_local i32 @main() #0 {
  %1 = alloca i32, align 4
  %2 = alloca [2 x i64], align 16
  %3 = alloca i64, align 8
  store i32 0, ptr %1, align 4
  store i64 0, ptr %3, align 8
  br label %4

4:                                                ; preds = %13, %0
  %5 = load i64, ptr %3, align 8
  %6 = call i64 @pg_in_len()
  %7 = icmp slt i64 %5, %6
  br i1 %7, label %8, label %16

8:                                                ; preds = %4
  %9 = load i64, ptr %3, align 8
  %10 = call i64 @pg_in(i64 noundef %9)
  %11 = load i64, ptr %3, align 8
  %12 = getelementptr inbounds [512 x i64], ptr @numbers, i64 0, i64 %11
  store i64 %10, ptr %12, align 8
  br label %13

13:                                               ; preds = %8
  %14 = load i64, ptr %3, align 8
  %15 = add nsw i64 %14, 1
  store i64 %15, ptr %3, align 8
  br label %4, !llvm.loop !6

16:                                               ; preds = %4
  %17 = getelementptr inbounds [2 x i64], ptr %2, i64 0, i64 0
  %18 = call i32 @pthread_create(ptr noundef %17, ptr noundef null, ptr noundef @look_low, ptr noundef null) #3
  %19 = getelementptr inbounds [2 x i64], ptr %2, i64 0, i64 1
  %20 = call i32 @pthread_create(ptr noundef %19, ptr noundef null, ptr noundef @look_high, ptr noundef null) #3
  %21 = getelementptr inbounds [2 x i64], ptr %2, i64 0, i64 0
  %22 = load i64, ptr %21, align 16
  %23 = call i32 @pthread_join(i64 noundef %22, ptr noundef null)
  %24 = getelementptr inbounds [2 x i64], ptr %2, i64 0, i64 1
  %25 = load i64, ptr %24, align 8
  %26 = call i32 @pthread_join(i64 noundef %25, ptr noundef null)
  %27 = load i64, ptr @low, align 8
  %28 = load i64, ptr @high, align 8
  %29 = icmp slt i64 %27, %28
  br i1 %29, label %30, label %32

30:                                               ; preds = %16
  %31 = load i64, ptr @low, align 8
  br label %34

32:                                               ; preds = %16
  %33 = load i64, ptr @high, align 8
  br label %34

34:                                               ; preds = %32, %30
  %35 = phi i64 [ %31, %30 ], [ %33, %32 ]
  call void @pg_out(i64 noundef %35)
  %36 = load i64, ptr getelementptr inbounds (%struct.result, ptr @low, i32 0, i32 1), align 8
  %37 = load i64, ptr getelementptr inbounds (%struct.result, ptr @high, i32 0, i32 1), align 8
  %38 = icmp sgt i64 %36, %37
  br i1 %38, label %39, label %41

39:                                               ; preds = %34
  %40 = load i64, ptr getelementptr inbounds (%struct.result, ptr @low, i32 0, i32 1), align 8
  br label %43

41:                                               ; preds = %34
  %42 = load i64, ptr getelementptr inbounds (%struct.result, ptr @high, i32 0, i32 1), align 8
  br label %43

43:                                               ; preds = %41, %39
  %44 = phi i64 [ %40, %39 ], [ %42, %41 ]
  call void @pg_out(i64 noundef %44)
  %45 = load i64, ptr getelementptr inbounds (%struct.result, ptr @low, i32 0, i32 2), align 8
  %46 = load i64, ptr getelementptr inbounds (%struct.result, ptr @high, i32 0, i32 2), align 8
  %47 = or i64 %45, %46
  call void @pg_out(i64 noundef %47)
  ret i32 0
}

declare i64 @pg_in_len() #1

declare i64 @pg_in(i64 noundef) #1

; Function Attrs: nounwind
declare i32 @pthread_create(ptr noundef, ptr noundef, ptr noundef, ptr noundef) #2

; Function Attrs: noinline nounwind optnone uwtable
define internal ptr @look_low(ptr noundef %0) #0 {
  %2 = alloca ptr, align 8
  store ptr %0, ptr %2, align 8
  %3 = call i64 @pg_in_len()
  %4 = sdiv i64 %3, 2
  call void @look(ptr noundef @low, i64 noundef 0, i64 noundef %4)
  %5 = load ptr, ptr %2, align 8
  ret ptr %5
}

; Function Attrs: noinline nounwind optnone uwtable
define internal ptr @look_high(ptr noundef %0) #0 {
  %2 = alloca ptr, align 8
  store ptr %0, ptr %2, align 8
  %3 = call i64 @pg_in_len()
  %4 = sdiv i64 %3, 2
  %5 = call i64 @pg_in_len()
  call void @look(ptr noundef @high, i64 noundef %4, i64 noundef %5)
  %6 = load ptr, ptr %2, align 8
  ret ptr %6
}

declare i32 @pthread_join(i64 noundef, ptr noundef) #1

declare void @pg_out(i64 noundef) #1

; Function Attrs: noinline nounwind optnone uwtable
define internal void @look(ptr noundef %0, i64 noundef %1, i64 noundef %2) #0 {
  %4 = alloca ptr, align 8
  %5 = alloca i64, align 8
  %6 = alloca i64, align 8
  %7 = alloca i64, align 8
  %8 = alloca i64, align 8
  %9 = alloca i64, align 8
  %10 = alloca i64, align 8
  store ptr %0, ptr %4, align 8
  store i64 %1, ptr %5, align 8
  store i64 %2, ptr %6, align 8
  store i64 9223372036854775807, ptr %7, align 8
  store i64 -9223372036854775808, ptr %8, align 8
  store i64 0, ptr %9, align 8
  %11 = load i64, ptr %5, align 8
  store i64 %11, ptr %10, align 8
  br label %12

12:                                               ; preds = %43, %3
  %13 = load i64, ptr %10, align 8
  %14 = load i64, ptr %6, align 8
  %15 = icmp slt i64 %13, %14
  br i1 %15, label %16, label %46

16:                                               ; preds = %12
  %17 = load i64, ptr %10, align 8
  %18 = getelementptr inbounds [512 x i64], ptr @numbers, i64 0, i64 %17
  %19 = load i64, ptr %18, align 8
  %20 = load i64, ptr %7, align 8
  %21 = icmp slt i64 %19, %20
  br i1 %21, label %22, label %26

22:                                               ; preds = %16
  %23 = load i64, ptr %10, align 8
  %24 = getelementptr inbounds [512 x i64], ptr @numbers, i64 0, i64 %23
  %25 = load i64, ptr %24, align 8
  store i64 %25, ptr %7, align 8
  br label %26

26:                                               ; preds = %22, %16
  %27 = load i64, ptr %10, align 8
  %28 = getelementptr inbounds [512 x i64], ptr @numbers, i64 0, i64 %27
  %29 = load i64, ptr %28, align 8
  %30 = load i64, ptr %8, align 8
  %31 = icmp sgt i64 %29, %30
  br i1 %31, label %32, label %36

32:                                               ; preds = %26
  %33 = load i64, ptr %10, align 8
  %34 = getelementptr inbounds [512 x i64], ptr @numbers, i64 0, i64 %33
  %35 = load i64, ptr %34, align 8
  store i64 %35, ptr %8, align 8
  br label %36

36:                                               ; preds = %32, %26
  %37 = load i64, ptr %10, align 8
  %38 = getelementptr inbounds [512 x i64], ptr @numbers, i64 0, i64 %37
  %39 = load i64, ptr %38, align 8
  %40 = icmp eq i64 %39, 7
  br i1 %40, label %41, label %42

41:                                               ; preds = %36
  store i64 1, ptr %9, align 8
  br label %42

42:                                               ; preds = %41, %36
  br label %43

43:                                               ; preds = %42
  %44 = load i64, ptr %10, align 8
  %45 = add nsw i64 %44, 1
  store i64 %45, ptr %10, align 8
  br label %12, !llvm.loop !8

46:                                               ; preds = %12
  %47 = load i64, ptr %7, align 8
  %48 = load ptr, ptr %4, align 8
  %49 = getelementptr inbounds %struct.result, ptr %48, i32 0, i32 0
  store i64 %47, ptr %49, align 8
  %50 = load i64, ptr %8, align 8
  %51 = load ptr, ptr %4, align 8
  %52 = getelementptr inbounds %struct.result, ptr %51, i32 0, i32 1
  store i64 %50, ptr %52, align 8
  %53 = load i64, ptr %9, align 8
  %54 = load ptr, ptr %4, align 8
  %55 = getelementptr inbounds %struct.result, ptr %54, i32 0, i32 2
  store i64 %53, ptr %55, align 8
  ret void
}

attributes #0 = { noinline nounwind optnone uwtable "frame-pointer"="all" "min-legal-vector-width"="0" "no-trapping-math"="true" "stack-protector-buffer-size"="8" "target-cpu"="x86-64" "target-features"="+cx8,+fxsr,+mmx,+sse,+sse2,+x87" "tune-cpu"="generic" }
attributes #1 = { "frame-pointer"="all" "no-trapping-math"="true" "stack-protector-buffer-size"="8" "target-cpu"="x86-64" "target-features"="+cx8,+fxsr,+mmx,+sse,+sse2,+x87" "tune-cpu"="generic" }
attributes #2 = { nounwind "frame-pointer"="all" "no-trapping-math"="true" "stack-protector-buffer-size"="8" "target-cpu"="x86-64" "target-features"="+cx8,+fxsr,+mmx,+sse,+sse2,+x87" "tune-cpu"="generic" }
attributes #3 = { nounwind }

!llvm.module.flags = !{!0, !1, !2, !3, !4}
!llvm.ident = !{!5}

!0 = !{i32 1, !"wchar_size", i32 4}
!1 = !{i32 8, !"PIC Level", i32 2}
!2 = !{i32 7, !"PIE Level", i32 2}
!3 = !{i32 7, !"uwtable", i32 2}
!4 = !{i32 7, !"frame-pointer", i32 2}
!5 = !{!"Debian clang version 16.0.6 (15~deb12u1)"}
!6 = distinct !{!6, !7}
!7 = !{!"llvm.loop.mustprogress"}
!8 = distinct !{!8, !7}
