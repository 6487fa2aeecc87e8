; ModuleID = 'quicksort.c'
source_filename = "quicksort.c"
target datalayout = "e-m:e-p270:32:32-p271:32:32-p272:64:64-i64:64-f80:128-n8:16:32:64-S128"
target triple = "x86_64-pc-linux-gnu"

%struct.part = type { i64, i64, i32 }

@numbers = internal global [512 x i64] zeroinitializer, align 16

; Function Attrs: noinline nounwind optnone uwtable
define dso_local i32 @main() #0 {
  %1 = alloca i32, align 4
  %2 = alloca i64, align 8
  %3 = alloca %struct.part, align 8
  %4 = alloca i64, align 8
  store i32 0, ptr %1, align 4
  store i64 0, ptr %2, align 8
  br label %5

5:                                                ; preds = %14, %0
  %6 = load i64, ptr %2, align 8
  %7 = call i64 @pg_in_len()
  %8 = icmp slt i64 %6, %7
  br i1 %8, label %9, label %17

9:                                                ; preds = %5
  %10 = load i64, ptr %2, align 8
  %11 = call i64 @pg_in(i64 noundef %10)
  %12 = load i64, ptr %2, align 8
  %13 = getelementptr inbounds [512 x i64], ptr @numbers, i64 0, i64 %12
  store i64 %11, ptr %13, align 8
  br label %14

14:                                               ; preds = %9
  %15 = load i64, ptr %2, align 8
  %16 = add nsw i64 %15, 1
  store i64 %16, ptr %2, align 8
  br label %5, !llvm.loop !6

17:                                               ; preds = %5
  %18 = getelementptr inbounds %struct.part, ptr %3, i32 0, i32 0
  store i64 0, ptr %18, align 8
  %19 = getelementptr inbounds %struct.part, ptr %3, i32 0, i32 1
  %20 = call i64 @pg_in_len()
  store i64 %20, ptr %19, align 8
  %21 = getelementptr inbounds %struct.part, ptr %3, i32 0, i32 2
  store i32 0, ptr %21, align 8
  %22 = call ptr @sort(ptr noundef %3)
  store i64 0, ptr %4, align 8
  br label %23

23:                                               ; preds = %31, %17
  %24 = load i64, ptr %4, align 8
  %25 = call i64 @pg_in_len()
  %26 = icmp slt i64 %24, %25
  br i1 %26, label %27, label %34

27:                                               ; preds = %23
  %28 = load i64, ptr %4, align 8
  %29 = getelementptr inbounds [512 x i64], ptr @numbers, i64 0, i64 %28
  %30 = load i64, ptr %29, align 8
  call void @pg_out(i64 noundef %30)
  br label %31

31:                                               ; preds = %27
  %32 = load i64, ptr %4, align 8
  %33 = add nsw i64 %32, 1
  store i64 %33, ptr %4, align 8
  br label %23, !llvm.loop !8

34:                                               ; preds = %23
  ret i32 0
}

declare i64 @pg_in_len() #1

declare i64 @pg_in(i64 noundef) #1

; Function Attrs: noinline nounwind optnone uwtable
define internal ptr @sort(ptr noundef %0) #0 {
  %2 = alloca ptr, align 8
  %3 = alloca ptr, align 8
  %4 = alloca ptr, align 8
  %5 = alloca i64, align 8
  %6 = alloca %struct.part, align 8
  %7 = alloca %struct.part, align 8
  %8 = alloca i64, align 8
  store ptr %0, ptr %3, align 8
  %9 = load ptr, ptr %3, align 8
  store ptr %9, ptr %4, align 8
  %10 = load ptr, ptr %4, align 8
  %11 = getelementptr inbounds %struct.part, ptr %10, i32 0, i32 1
  %12 = load i64, ptr %11, align 8
  %13 = load ptr, ptr %4, align 8
  %14 = getelementptr inbounds %struct.part, ptr %13, i32 0, i32 0
  %15 = load i64, ptr %14, align 8
  %16 = sub nsw i64 %12, %15
  %17 = icmp slt i64 %16, 2
  br i1 %17, label %18, label %19

18:                                               ; preds = %1
  store ptr null, ptr %2, align 8
  br label %63

19:                                               ; preds = %1
  %20 = load ptr, ptr %4, align 8
  %21 = getelementptr inbounds %struct.part, ptr %20, i32 0, i32 0
  %22 = load i64, ptr %21, align 8
  %23 = load ptr, ptr %4, align 8
  %24 = getelementptr inbounds %struct.part, ptr %23, i32 0, i32 1
  %25 = load i64, ptr %24, align 8
  %26 = call i64 @divide(i64 noundef %22, i64 noundef %25)
  store i64 %26, ptr %5, align 8
  %27 = getelementptr inbounds %struct.part, ptr %6, i32 0, i32 0
  %28 = load ptr, ptr %4, align 8
  %29 = getelementptr inbounds %struct.part, ptr %28, i32 0, i32 0
  %30 = load i64, ptr %29, align 8
  store i64 %30, ptr %27, align 8
  %31 = getelementptr inbounds %struct.part, ptr %6, i32 0, i32 1
  %32 = load i64, ptr %5, align 8
  store i64 %32, ptr %31, align 8
  %33 = getelementptr inbounds %struct.part, ptr %6, i32 0, i32 2
  %34 = load ptr, ptr %4, align 8
  %35 = getelementptr inbounds %struct.part, ptr %34, i32 0, i32 2
  %36 = load i32, ptr %35, align 8
  %37 = add nsw i32 %36, 1
  store i32 %37, ptr %33, align 8
  %38 = getelementptr inbounds %struct.part, ptr %7, i32 0, i32 0
  %39 = load i64, ptr %5, align 8
  %40 = add nsw i64 %39, 1
  store i64 %40, ptr %38, align 8
  %41 = getelementptr inbounds %struct.part, ptr %7, i32 0, i32 1
  %42 = load ptr, ptr %4, align 8
  %43 = getelementptr inbounds %struct.part, ptr %42, i32 0, i32 1
  %44 = load i64, ptr %43, align 8
  store i64 %44, ptr %41, align 8
  %45 = getelementptr inbounds %struct.part, ptr %7, i32 0, i32 2
  %46 = load ptr, ptr %4, align 8
  %47 = getelementptr inbounds %struct.part, ptr %46, i32 0, i32 2
  %48 = load i32, ptr %47, align 8
  %49 = add nsw i32 %48, 1
  store i32 %49, ptr %45, align 8
  %50 = load ptr, ptr %4, align 8
  %51 = getelementptr inbounds %struct.part, ptr %50, i32 0, i32 2
  %52 = load i32, ptr %51, align 8
  %53 = icmp slt i32 %52, 2
  br i1 %53, label %54, label %59

54:                                               ; preds = %19
  %55 = call i32 @pthread_create(ptr noundef %8, ptr noundef null, ptr noundef @sort, ptr noundef %6) #3
  %56 = call ptr @sort(ptr noundef %7)
  %57 = load i64, ptr %8, align 8
  %58 = call i32 @pthread_join(i64 noundef %57, ptr noundef null)
  br label %62

59:                                               ; preds = %19
  %60 = call ptr @sort(ptr noundef %6)
  %61 = call ptr @sort(ptr noundef %7)
  br label %62

62:                                               ; preds = %59, %54
  store ptr null, ptr %2, align 8
  br label %63

63:                                               ; preds = %62, %18
  %64 = load ptr, ptr %2, align 8
  ret ptr %64
}

declare void @pg_out(i64 noundef) #1

; Function Attrs: noinline nounwind optnone uwtable
define internal i64 @divide(i64 noundef %0, i64 noundef %1) #0 {
  %3 = alloca i64, align 8
  %4 = alloca i64, align 8
  %5 = alloca i64, align 8
  %6 = alloca i64, align 8
  store i64 %0, ptr %3, align 8
  store i64 %1, ptr %4, align 8
  %7 = load i64, ptr %3, align 8
  store i64 %7, ptr %5, align 8
  %8 = load i64, ptr %3, align 8
  %9 = load i64, ptr %4, align 8
  %10 = add nsw i64 %8, %9
  %11 = sdiv i64 %10, 2
  %12 = load i64, ptr %4, align 8
  %13 = sub nsw i64 %12, 1
  call void @swap(i64 noundef %11, i64 noundef %13)
  %14 = load i64, ptr %3, align 8
  store i64 %14, ptr %6, align 8
  br label %15

15:                                               ; preds = %34, %2
  %16 = load i64, ptr %6, align 8
  %17 = load i64, ptr %4, align 8
  %18 = sub nsw i64 %17, 1
  %19 = icmp slt i64 %16, %18
  br i1 %19, label %20, label %37

20:                                               ; preds = %15
  %21 = load i64, ptr %6, align 8
  %22 = getelementptr inbounds [512 x i64], ptr @numbers, i64 0, i64 %21
  %23 = load i64, ptr %22, align 8
  %24 = load i64, ptr %4, align 8
  %25 = sub nsw i64 %24, 1
  %26 = getelementptr inbounds [512 x i64], ptr @numbers, i64 0, i64 %25
  %27 = load i64, ptr %26, align 8
  %28 = icmp slt i64 %23, %27
  br i1 %28, label %29, label %33

29:                                               ; preds = %20
  %30 = load i64, ptr %6, align 8
  %31 = load i64, ptr %5, align 8
  %32 = add nsw i64 %31, 1
  store i64 %32, ptr %5, align 8
  call void @swap(i64 noundef %30, i64 noundef %31)
  br label %33

33:                                               ; preds = %29, %20
  br label %34

34:                                               ; preds = %33
  %35 = load i64, ptr %6, align 8
  %36 = add nsw i64 %35, 1
  store i64 %36, ptr %6, align 8
  br label %15, !llvm.loop !9

37:                                               ; preds = %15
  %38 = load i64, ptr %5, align 8
  %39 = load i64, ptr %4, align 8
  %40 = sub nsw i64 %39, 1
  call void @swap(i64 noundef %38, i64 noundef %40)
  %41 = load i64, ptr %5, align 8
  ret i64 %41
}

; Function Attrs: nounwind
declare i32 @pthread_create(ptr noundef, ptr noundef, ptr noundef, ptr noundef) #2

declare i32 @pthread_join(i64 noundef, ptr noundef) #1

; Function Attrs: noinline nounwind optnone uwtable
define internal void @swap(i64 noundef %0, i64 noundef %1) #0 {
  %3 = alloca i64, align 8
  %4 = alloca i64, align 8
  %5 = alloca i64, align 8
  store i64 %0, ptr %3, align 8
  store i64 %1, ptr %4, align 8
  %6 = load i64, ptr %3, align 8
  %7 = getelementptr inbounds [512 x i64], ptr @numbers, i64 0, i64 %6
  %8 = load i64, ptr %7, align 8
  store i64 %8, ptr %5, align 8
  %9 = load i64, ptr %4, align 8
  %10 = getelementptr inbounds [512 x i64], ptr @numbers, i64 0, i64 %9
  %11 = load i64, ptr %10, align 8
  %12 = load i64, ptr %3, align 8
  %13 = getelementptr inbounds [512 x i64], ptr @numbers, i64 0, i64 %12
  store i64 %11, ptr %13, align 8
  %14 = load i64, ptr %5, align 8
  %15 = load i64, ptr %4, align 8
  %16 = getelementptr inbounds [512 x i64], ptr @numbers, i64 0, i64 %15
  store i64 %14, ptr %16, align 8
  ret void
}

attributes #0 = { noinline nounwind optnone uwtable "frame-pointer"="all" "min-legal-vector-width"="0" "no-trapping-math"="true" "stack-protector-buffer-size"="8" "target-cpu"="x86-64" "target-features"="+cx8,+fxsr,+mmx,+sse,+sse2,+x87" "tune-cpu"="generic" }
attributes #1 = { "frame-pointer"="all" "no-trapping-math"="true" "stack-protector-buffer-size"="8" "target-cpu"="x86-64" "target-features"="+cx8,+fxsr,+mmx,+sse,+sse2,+x87" "tune-cpu"="generic" }
attributes #2 = { nounwind "frame-pointer"="all" "no-trapping-math"="true" "stack-protector-buffer-size"="8" "target-cpu"="x86-64" "target-features"="+cx8,+fxsr,+mmx,+sse,+sse2,+x87" "tune-cpu"="generic" }
attributes #3 = { nounwind }

!llvm.module.flags = !{!0, !1, !2, !3, !4}
!llvm.ident = !{!5}

!0 = !{i32 1, !"wchar_size", i32 4}
!1 = !{i32 8, !"PIC Level", i32 2}
!2 = !{i32 7, !"PIE Level", i32 2}
!3 = !{i32 7, !"uwtable", i32 2}
!4 = !{i32 7, !"frame-pointer", i32 2}
!5 = !{!"Debian clang version 16.0.6 (15~deb12u1)"}
!6 = distinct !{!6, !7}
!7 = !{!"llvm.loop.mustprogress"}
!8 = distinct !{!8, !7}
!9 = distinct !{!9, !7}
