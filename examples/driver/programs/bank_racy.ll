; ModuleID = 'bank_racy.c'
source_filename = "bank_racy.c"
target datalayout = "e-m:e-p270:32:32-p271:32:32-p272:64:64-i64:64-f80:128-n8:16:32:64-S128"
target triple = "x86_64-pc-linux-gnu"

%struct.anon = type { %union.pthread_mutex_t, i64 }
%union.pthread_mutex_t = type { %struct.__pthread_mutex_s }
%struct.__pthread_mutex_s = type { i32, i32, i32, i32, i32, i16, i16, %struct.__pthread_internal_list }
%struct.__pthread_internal_list = type { ptr, ptr }

@accounts = internal global [4 x %struct.anon] zeroinitializer, align 16
@.str = private unnamed_addr constant [20 x i8] c"the bank holds %ld\0A\00", align 1

; Function Attrs: noinline nounwind optnone uwtable
define dso_local i32 @main() #0 {
  %1 = alloca i32, align 4
  %2 = alloca [3 x i64], align 16
  %3 = alloca i32, align 4
  %4 = alloca i64, align 8
  %5 = alloca i32, align 4
  %6 = alloca i64, align 8
  %7 = alloca i32, align 4
  store i32 0, ptr %1, align 4
  store i32 0, ptr %3, align 4
  br label %8

8:                                                ; preds = %21, %0
  %9 = load i32, ptr %3, align 4
  %10 = icmp slt i32 %9, 4
  br i1 %10, label %11, label %24

11:                                               ; preds = %8
  %12 = load i32, ptr %3, align 4
  %13 = sext i32 %12 to i64
  %14 = getelementptr inbounds [4 x %struct.anon], ptr @accounts, i64 0, i64 %13
  %15 = getelementptr inbounds %struct.anon, ptr %14, i32 0, i32 0
  %16 = call i32 @pthread_mutex_init(ptr noundef %15, ptr noundef null) #3
  %17 = load i32, ptr %3, align 4
  %18 = sext i32 %17 to i64
  %19 = getelementptr inbounds [4 x %struct.anon], ptr @accounts, i64 0, i64 %18
  %20 = getelementptr inbounds %struct.anon, ptr %19, i32 0, i32 1
  store i64 100, ptr %20, align 8
  br label %21

21:                                               ; preds = %11
  %22 = load i32, ptr %3, align 4
  %23 = add nsw i32 %22, 1
  store i32 %23, ptr %3, align 4
  br label %8, !llvm.loop !6

24:                                               ; preds = %8
  store i64 0, ptr %4, align 8
  br label %25

25:                                               ; preds = %34, %24
  %26 = load i64, ptr %4, align 8
  %27 = icmp slt i64 %26, 3
  br i1 %27, label %28, label %37

28:                                               ; preds = %25
  %29 = load i64, ptr %4, align 8
  %30 = getelementptr inbounds [3 x i64], ptr %2, i64 0, i64 %29
  %31 = load i64, ptr %4, align 8
  %32 = inttoptr i64 %31 to ptr
  %33 = call i32 @pthread_create(ptr noundef %30, ptr noundef null, ptr noundef @clerk, ptr noundef %32) #3
  br label %34

34:                                               ; preds = %28
  %35 = load i64, ptr %4, align 8
  %36 = add nsw i64 %35, 1
  store i64 %36, ptr %4, align 8
  br label %25, !llvm.loop !8

37:                                               ; preds = %25
  store i32 0, ptr %5, align 4
  br label %38

38:                                               ; preds = %47, %37
  %39 = load i32, ptr %5, align 4
  %40 = icmp slt i32 %39, 3
  br i1 %40, label %41, label %50

41:                                               ; preds = %38
  %42 = load i32, ptr %5, align 4
  %43 = sext i32 %42 to i64
  %44 = getelementptr inbounds [3 x i64], ptr %2, i64 0, i64 %43
  %45 = load i64, ptr %44, align 8
  %46 = call i32 @pthread_join(i64 noundef %45, ptr noundef null)
  br label %47

47:                                               ; preds = %41
  %48 = load i32, ptr %5, align 4
  %49 = add nsw i32 %48, 1
  store i32 %49, ptr %5, align 4
  br label %38, !llvm.loop !9

50:                                               ; preds = %38
  store i64 0, ptr %6, align 8
  store i32 0, ptr %7, align 4
  br label %51

51:                                               ; preds = %62, %50
  %52 = load i32, ptr %7, align 4
  %53 = icmp slt i32 %52, 4
  br i1 %53, label %54, label %65

54:                                               ; preds = %51
  %55 = load i32, ptr %7, align 4
  %56 = sext i32 %55 to i64
  %57 = getelementptr inbounds [4 x %struct.anon], ptr @accounts, i64 0, i64 %56
  %58 = getelementptr inbounds %struct.anon, ptr %57, i32 0, i32 1
  %59 = load i64, ptr %58, align 8
  %60 = load i64, ptr %6, align 8
  %61 = add nsw i64 %60, %59
  store i64 %61, ptr %6, align 8
  br label %62

62:                                               ; preds = %54
  %63 = load i32, ptr %7, align 4
  %64 = add nsw i32 %63, 1
  store i32 %64, ptr %7, align 4
  br label %51, !llvm.loop !10

65:                                               ; preds = %51
  %66 = load i64, ptr %6, align 8
  %67 = call i32 (ptr, ...) @printf(ptr noundef @.str, i64 noundef %66)
  ret i32 0
}

; Function Attrs: nounwind
declare i32 @pthread_mutex_init(ptr noundef, ptr noundef) #1

; Function Attrs: nounwind
declare i32 @pthread_create(ptr noundef, ptr noundef, ptr noundef, ptr noundef) #1

; Function Attrs: noinline nounwind optnone uwtable
define internal ptr @clerk(ptr noundef %0) #0 {
  %2 = alloca ptr, align 8
  %3 = alloca i64, align 8
  %4 = alloca i32, align 4
  %5 = alloca i32, align 4
  store ptr %0, ptr %2, align 8
  store i64 0, ptr %3, align 8
  br label %6

6:                                                ; preds = %40, %1
  %7 = load i64, ptr %3, align 8
  %8 = call i64 @pg_in_len()
  %9 = icmp slt i64 %7, %8
  br i1 %9, label %10, label %43

10:                                               ; preds = %6
  %11 = load ptr, ptr %2, align 8
  %12 = ptrtoint ptr %11 to i64
  %13 = load i64, ptr %3, align 8
  %14 = add nsw i64 %12, %13
  %15 = srem i64 %14, 4
  %16 = trunc i64 %15 to i32
  store i32 %16, ptr %4, align 4
  %17 = load i32, ptr %4, align 4
  %18 = add nsw i32 %17, 1
  %19 = srem i32 %18, 4
  store i32 %19, ptr %5, align 4
  %20 = load i32, ptr %4, align 4
  %21 = load i32, ptr %5, align 4
  call void @lock_both(i32 noundef %20, i32 noundef %21)
  %22 = load i64, ptr %3, align 8
  %23 = call i64 @pg_in(i64 noundef %22)
  %24 = load i32, ptr %4, align 4
  %25 = sext i32 %24 to i64
  %26 = getelementptr inbounds [4 x %struct.anon], ptr @accounts, i64 0, i64 %25
  %27 = getelementptr inbounds %struct.anon, ptr %26, i32 0, i32 1
  %28 = load i64, ptr %27, align 8
  %29 = sub nsw i64 %28, %23
  store i64 %29, ptr %27, align 8
  %30 = load i64, ptr %3, align 8
  %31 = call i64 @pg_in(i64 noundef %30)
  %32 = load i32, ptr %5, align 4
  %33 = sext i32 %32 to i64
  %34 = getelementptr inbounds [4 x %struct.anon], ptr @accounts, i64 0, i64 %33
  %35 = getelementptr inbounds %struct.anon, ptr %34, i32 0, i32 1
  %36 = load i64, ptr %35, align 8
  %37 = add nsw i64 %36, %31
  store i64 %37, ptr %35, align 8
  %38 = load i32, ptr %4, align 4
  %39 = load i32, ptr %5, align 4
  call void @unlock_both(i32 noundef %38, i32 noundef %39)
  br label %40

40:                                               ; preds = %10
  %41 = load i64, ptr %3, align 8
  %42 = add nsw i64 %41, 1
  store i64 %42, ptr %3, align 8
  br label %6, !llvm.loop !11

43:                                               ; preds = %6
  ret ptr null
}

declare i32 @pthread_join(i64 noundef, ptr noundef) #2

declare i32 @printf(ptr noundef, ...) #2

declare i64 @pg_in_len() #2

; Function Attrs: noinline nounwind optnone uwtable
define internal void @lock_both(i32 noundef %0, i32 noundef %1) #0 {
  %3 = alloca i32, align 4
  %4 = alloca i32, align 4
  store i32 %0, ptr %3, align 4
  store i32 %1, ptr %4, align 4
  ret void
}

declare i64 @pg_in(i64 noundef) #2

; Function Attrs: noinline nounwind optnone uwtable
define internal void @unlock_both(i32 noundef %0, i32 noundef %1) #0 {
  %3 = alloca i32, align 4
  %4 = alloca i32, align 4
  store i32 %0, ptr %3, align 4
  store i32 %1, ptr %4, align 4
  ret void
}

attributes #0 = { noinline nounwind optnone uwtable "frame-pointer"="all" "min-legal-vector-width"="0" "no-trapping-math"="true" "stack-protector-buffer-size"="8" "target-cpu"="x86-64" "target-features"="+cx8,+fxsr,+mmx,+sse,+sse2,+x87" "tune-cpu"="generic" }
attributes #1 = { nounwind "frame-pointer"="all" "no-trapping-math"="true" "stack-protector-buffer-size"="8" "target-cpu"="x86-64" "target-features"="+cx8,+fxsr,+mmx,+sse,+sse2,+x87" "tune-cpu"="generic" }
attributes #2 = { "frame-pointer"="all" "no-trapping-math"="true" "stack-protector-buffer-size"="8" "target-cpu"="x86-64" "target-features"="+cx8,+fxsr,+mmx,+sse,+sse2,+x87" "tune-cpu"="generic" }
attributes #3 = { nounwind }

!llvm.module.flags = !{!0, !1, !2, !3, !4}
!llvm.ident = !{!5}

!0 = !{i32 1, !"wchar_size", i32 4}
!1 = !{i32 8, !"PIC Level", i32 2}
!2 = !{i32 7, !"PIE Level", i32 2}
!3 = !{i32 7, !"uwtable", i32 2}
!4 = !{i32 7, !"frame-pointer", i32 2}
!5 = !{!"Debian clang version 16.0.6 (15~deb12u1)"}
!6 = distinct !{!6, !7}
!7 = !{!"llvm.loop.mustprogress"}
!8 = distinct !{!8, !7}
!9 = distinct !{!9, !7}
!10 = distinct !{!10, !7}
!11 = distinct !{!11, !7}
