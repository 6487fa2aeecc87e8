; ModuleID = 'quicksort_apart.c'
source_filename = "quicksort_apart.c"
target datalayout = "e-m:e-p270:32:32-p271:32:32-p272:64:64-i64:64-f80:128-n8:16:32:64-S128"
target triple = "x86_64-pc-linux-gnu"

%struct.half = type { i64, [512 x i64], [512 x i64], [512 x i64] }

@low = internal global %struct.half zeroinitializer, align 8
@high = internal global %struct.half zeroinitializer, align 8
@numbers = internal global [512 x i64] zeroinitializer, align 16

; Function Attrs: noinline nounwind optnone uwtable
define dso_local i32 @main() #0 {
  %1 = alloca i32, align 4
  %2 = alloca i64, align 8
  %3 = alloca i64, align 8
  %4 = alloca [2 x i64], align 16
  %5 = alloca i64, align 8
  store i32 0, ptr %1, align 4
  %6 = call i64 @pg_in_len()
  %7 = sdiv i64 %6, 2
  store i64 %7, ptr @low, align 8
  %8 = call i64 @pg_in_len()
  %9 = load i64, ptr @low, align 8
  %10 = sub nsw i64 %8, %9
  store i64 %10, ptr @high, align 8
  store i64 0, ptr %2, align 8
  br label %11

11:                                               ; preds = %20, %0
  %12 = load i64, ptr %2, align 8
  %13 = load i64, ptr @low, align 8
  %14 = icmp slt i64 %12, %13
  br i1 %14, label %15, label %23

15:                                               ; preds = %11
  %16 = load i64, ptr %2, align 8
  %17 = call i64 @pg_in(i64 noundef %16)
  %18 = load i64, ptr %2, align 8
  %19 = getelementptr inbounds [512 x i64], ptr getelementptr inbounds (%struct.half, ptr @low, i32 0, i32 1), i64 0, i64 %18
  store i64 %17, ptr %19, align 8
  br label %20

20:                                               ; preds = %15
  %21 = load i64, ptr %2, align 8
  %22 = add nsw i64 %21, 1
  store i64 %22, ptr %2, align 8
  br label %11, !llvm.loop !6

23:                                               ; preds = %11
  store i64 0, ptr %3, align 8
  br label %24

24:                                               ; preds = %35, %23
  %25 = load i64, ptr %3, align 8
  %26 = load i64, ptr @high, align 8
  %27 = icmp slt i64 %25, %26
  br i1 %27, label %28, label %38

28:                                               ; preds = %24
  %29 = load i64, ptr @low, align 8
  %30 = load i64, ptr %3, align 8
  %31 = add nsw i64 %29, %30
  %32 = call i64 @pg_in(i64 noundef %31)
  %33 = load i64, ptr %3, align 8
  %34 = getelementptr inbounds [512 x i64], ptr getelementptr inbounds (%struct.half, ptr @high, i32 0, i32 1), i64 0, i64 %33
  store i64 %32, ptr %34, align 8
  br label %35

35:                                               ; preds = %28
  %36 = load i64, ptr %3, align 8
  %37 = add nsw i64 %36, 1
  store i64 %37, ptr %3, align 8
  br label %24, !llvm.loop !8

38:                                               ; preds = %24
  %39 = getelementptr inbounds [2 x i64], ptr %4, i64 0, i64 0
  %40 = call i32 @pthread_create(ptr noundef %39, ptr noundef null, ptr noundef @sort_low, ptr noundef null) #3
  %41 = getelementptr inbounds [2 x i64], ptr %4, i64 0, i64 1
  %42 = call i32 @pthread_create(ptr noundef %41, ptr noundef null, ptr noundef @sort_high, ptr noundef null) #3
  %43 = getelementptr inbounds [2 x i64], ptr %4, i64 0, i64 0
  %44 = load i64, ptr %43, align 16
  %45 = call i32 @pthread_join(i64 noundef %44, ptr noundef null)
  %46 = getelementptr inbounds [2 x i64], ptr %4, i64 0, i64 1
  %47 = load i64, ptr %46, align 8
  %48 = call i32 @pthread_join(i64 noundef %47, ptr noundef null)
  call void @merge()
  store i64 0, ptr %5, align 8
  br label %49

49:                                               ; preds = %57, %38
  %50 = load i64, ptr %5, align 8
  %51 = call i64 @pg_in_len()
  %52 = icmp slt i64 %50, %51
  br i1 %52, label %53, label %60

53:                                               ; preds = %49
  %54 = load i64, ptr %5, align 8
  %55 = getelementptr inbounds [512 x i64], ptr @numbers, i64 0, i64 %54
  %56 = load i64, ptr %55, align 8
  call void @pg_out(i64 noundef %56)
  br label %57

57:                                               ; preds = %53
  %58 = load i64, ptr %5, align 8
  %59 = add nsw i64 %58, 1
  store i64 %59, ptr %5, align 8
  br label %49, !llvm.loop !9

60:                                               ; preds = %49
  ret i32 0
}

declare i64 @pg_in_len() #1

declare i64 @pg_in(i64 noundef) #1

; Function Attrs: nounwind
declare i32 @pthread_create(ptr noundef, ptr noundef, ptr noundef, ptr noundef) #2

; Function Attrs: noinline nounwind optnone uwtable
define internal ptr @sort_low(ptr noundef %0) #0 {
  %2 = alloca ptr, align 8
  store ptr %0, ptr %2, align 8
  call void @sort(ptr noundef @low)
  %3 = load ptr, ptr %2, align 8
  ret ptr %3
}

; Function Attrs: noinline nounwind optnone uwtable
define internal ptr @sort_high(ptr noundef %0) #0 {
  %2 = alloca ptr, align 8
  store ptr %0, ptr %2, align 8
  call void @sort(ptr noundef @high)
  %3 = load ptr, ptr %2, align 8
  ret ptr %3
}

declare i32 @pthread_join(i64 noundef, ptr noundef) #1

; Function Attrs: noinline nounwind optnone uwtable
define internal void @merge() #0 {
  %1 = alloca i64, align 8
  %2 = alloca i64, align 8
  %3 = alloca i64, align 8
  store i64 0, ptr %1, align 8
  store i64 0, ptr %2, align 8
  store i64 0, ptr %3, align 8
  br label %4

4:                                                ; preds = %39, %0
  %5 = load i64, ptr %3, align 8
  %6 = call i64 @pg_in_len()
  %7 = icmp slt i64 %5, %6
  br i1 %7, label %8, label %42

8:                                                ; preds = %4
  %9 = load i64, ptr %2, align 8
  %10 = load i64, ptr @high, align 8
  %11 = icmp eq i64 %9, %10
  br i1 %11, label %24, label %12

12:                                               ; preds = %8
  %13 = load i64, ptr %1, align 8
  %14 = load i64, ptr @low, align 8
  %15 = icmp slt i64 %13, %14
  br i1 %15, label %16, label %31

16:                                               ; preds = %12
  %17 = load i64, ptr %1, align 8
  %18 = getelementptr inbounds [512 x i64], ptr getelementptr inbounds (%struct.half, ptr @low, i32 0, i32 1), i64 0, i64 %17
  %19 = load i64, ptr %18, align 8
  %20 = load i64, ptr %2, align 8
  %21 = getelementptr inbounds [512 x i64], ptr getelementptr inbounds (%struct.half, ptr @high, i32 0, i32 1), i64 0, i64 %20
  %22 = load i64, ptr %21, align 8
  %23 = icmp sle i64 %19, %22
  br i1 %23, label %24, label %31

24:                                               ; preds = %16, %8
  %25 = load i64, ptr %1, align 8
  %26 = add nsw i64 %25, 1
  store i64 %26, ptr %1, align 8
  %27 = getelementptr inbounds [512 x i64], ptr getelementptr inbounds (%struct.half, ptr @low, i32 0, i32 1), i64 0, i64 %25
  %28 = load i64, ptr %27, align 8
  %29 = load i64, ptr %3, align 8
  %30 = getelementptr inbounds [512 x i64], ptr @numbers, i64 0, i64 %29
  store i64 %28, ptr %30, align 8
  br label %38

31:                                               ; preds = %16, %12
  %32 = load i64, ptr %2, align 8
  %33 = add nsw i64 %32, 1
  store i64 %33, ptr %2, align 8
  %34 = getelementptr inbounds [512 x i64], ptr getelementptr inbounds (%struct.half, ptr @high, i32 0, i32 1), i64 0, i64 %32
  %35 = load i64, ptr %34, align 8
  %36 = load i64, ptr %3, align 8
  %37 = getelementptr inbounds [512 x i64], ptr @numbers, i64 0, i64 %36
  store i64 %35, ptr %37, align 8
  br label %38

38:                                               ; preds = %31, %24
  br label %39

39:                                               ; preds = %38
  %40 = load i64, ptr %3, align 8
  %41 = add nsw i64 %40, 1
  store i64 %41, ptr %3, align 8
  br label %4, !llvm.loop !10

42:                                               ; preds = %4
  ret void
}

declare void @pg_out(i64 noundef) #1

; Function Attrs: noinline nounwind optnone uwtable
define internal void @sort(ptr noundef %0) #0 {
  %2 = alloca ptr, align 8
  %3 = alloca i64, align 8
  %4 = alloca i64, align 8
  %5 = alloca i64, align 8
  %6 = alloca i64, align 8
  %7 = alloca i64, align 8
  %8 = alloca i64, align 8
  %9 = alloca i64, align 8
  store ptr %0, ptr %2, align 8
  store i64 1, ptr %3, align 8
  %10 = load ptr, ptr %2, align 8
  %11 = getelementptr inbounds %struct.half, ptr %10, i32 0, i32 2
  %12 = getelementptr inbounds [512 x i64], ptr %11, i64 0, i64 0
  store i64 0, ptr %12, align 8
  %13 = load ptr, ptr %2, align 8
  %14 = getelementptr inbounds %struct.half, ptr %13, i32 0, i32 0
  %15 = load i64, ptr %14, align 8
  %16 = load ptr, ptr %2, align 8
  %17 = getelementptr inbounds %struct.half, ptr %16, i32 0, i32 3
  %18 = getelementptr inbounds [512 x i64], ptr %17, i64 0, i64 0
  store i64 %15, ptr %18, align 8
  br label %19

19:                                               ; preds = %101, %39, %1
  %20 = load i64, ptr %3, align 8
  %21 = icmp sgt i64 %20, 0
  br i1 %21, label %22, label %140

22:                                               ; preds = %19
  %23 = load ptr, ptr %2, align 8
  %24 = getelementptr inbounds %struct.half, ptr %23, i32 0, i32 2
  %25 = load i64, ptr %3, align 8
  %26 = add nsw i64 %25, -1
  store i64 %26, ptr %3, align 8
  %27 = getelementptr inbounds [512 x i64], ptr %24, i64 0, i64 %26
  %28 = load i64, ptr %27, align 8
  store i64 %28, ptr %4, align 8
  %29 = load ptr, ptr %2, align 8
  %30 = getelementptr inbounds %struct.half, ptr %29, i32 0, i32 3
  %31 = load i64, ptr %3, align 8
  %32 = getelementptr inbounds [512 x i64], ptr %30, i64 0, i64 %31
  %33 = load i64, ptr %32, align 8
  store i64 %33, ptr %5, align 8
  %34 = load i64, ptr %4, align 8
  store i64 %34, ptr %6, align 8
  %35 = load i64, ptr %5, align 8
  %36 = load i64, ptr %4, align 8
  %37 = sub nsw i64 %35, %36
  %38 = icmp slt i64 %37, 2
  br i1 %38, label %39, label %40

39:                                               ; preds = %22
  br label %19, !llvm.loop !11

40:                                               ; preds = %22
  %41 = load ptr, ptr %2, align 8
  %42 = getelementptr inbounds %struct.half, ptr %41, i32 0, i32 1
  %43 = load i64, ptr %4, align 8
  %44 = load i64, ptr %5, align 8
  %45 = add nsw i64 %43, %44
  %46 = sdiv i64 %45, 2
  %47 = getelementptr inbounds [512 x i64], ptr %42, i64 0, i64 %46
  %48 = load i64, ptr %47, align 8
  store i64 %48, ptr %7, align 8
  %49 = load ptr, ptr %2, align 8
  %50 = getelementptr inbounds %struct.half, ptr %49, i32 0, i32 1
  %51 = load i64, ptr %5, align 8
  %52 = sub nsw i64 %51, 1
  %53 = getelementptr inbounds [512 x i64], ptr %50, i64 0, i64 %52
  %54 = load i64, ptr %53, align 8
  %55 = load ptr, ptr %2, align 8
  %56 = getelementptr inbounds %struct.half, ptr %55, i32 0, i32 1
  %57 = load i64, ptr %4, align 8
  %58 = load i64, ptr %5, align 8
  %59 = add nsw i64 %57, %58
  %60 = sdiv i64 %59, 2
  %61 = getelementptr inbounds [512 x i64], ptr %56, i64 0, i64 %60
  store i64 %54, ptr %61, align 8
  %62 = load i64, ptr %4, align 8
  store i64 %62, ptr %8, align 8
  br label %63

63:                                               ; preds = %98, %40
  %64 = load i64, ptr %8, align 8
  %65 = load i64, ptr %5, align 8
  %66 = sub nsw i64 %65, 1
  %67 = icmp slt i64 %64, %66
  br i1 %67, label %68, label %101

68:                                               ; preds = %63
  %69 = load ptr, ptr %2, align 8
  %70 = getelementptr inbounds %struct.half, ptr %69, i32 0, i32 1
  %71 = load i64, ptr %8, align 8
  %72 = getelementptr inbounds [512 x i64], ptr %70, i64 0, i64 %71
  %73 = load i64, ptr %72, align 8
  %74 = load i64, ptr %7, align 8
  %75 = icmp slt i64 %73, %74
  br i1 %75, label %76, label %97

76:                                               ; preds = %68
  %77 = load ptr, ptr %2, align 8
  %78 = getelementptr inbounds %struct.half, ptr %77, i32 0, i32 1
  %79 = load i64, ptr %8, align 8
  %80 = getelementptr inbounds [512 x i64], ptr %78, i64 0, i64 %79
  %81 = load i64, ptr %80, align 8
  store i64 %81, ptr %9, align 8
  %82 = load ptr, ptr %2, align 8
  %83 = getelementptr inbounds %struct.half, ptr %82, i32 0, i32 1
  %84 = load i64, ptr %6, align 8
  %85 = getelementptr inbounds [512 x i64], ptr %83, i64 0, i64 %84
  %86 = load i64, ptr %85, align 8
  %87 = load ptr, ptr %2, align 8
  %88 = getelementptr inbounds %struct.half, ptr %87, i32 0, i32 1
  %89 = load i64, ptr %8, align 8
  %90 = getelementptr inbounds [512 x i64], ptr %88, i64 0, i64 %89
  store i64 %86, ptr %90, align 8
  %91 = load i64, ptr %9, align 8
  %92 = load ptr, ptr %2, align 8
  %93 = getelementptr inbounds %struct.half, ptr %92, i32 0, i32 1
  %94 = load i64, ptr %6, align 8
  %95 = add nsw i64 %94, 1
  store i64 %95, ptr %6, align 8
  %96 = getelementptr inbounds [512 x i64], ptr %93, i64 0, i64 %94
  store i64 %91, ptr %96, align 8
  br label %97

97:                                               ; preds = %76, %68
  br label %98

98:                                               ; preds = %97
  %99 = load i64, ptr %8, align 8
  %100 = add nsw i64 %99, 1
  store i64 %100, ptr %8, align 8
  br label %63, !llvm.loop !12

101:                                              ; preds = %63
  %102 = load ptr, ptr %2, align 8
  %103 = getelementptr inbounds %struct.half, ptr %102, i32 0, i32 1
  %104 = load i64, ptr %6, align 8
  %105 = getelementptr inbounds [512 x i64], ptr %103, i64 0, i64 %104
  %106 = load i64, ptr %105, align 8
  %107 = load ptr, ptr %2, align 8
  %108 = getelementptr inbounds %struct.half, ptr %107, i32 0, i32 1
  %109 = load i64, ptr %5, align 8
  %110 = sub nsw i64 %109, 1
  %111 = getelementptr inbounds [512 x i64], ptr %108, i64 0, i64 %110
  store i64 %106, ptr %111, align 8
  %112 = load i64, ptr %7, align 8
  %113 = load ptr, ptr %2, align 8
  %114 = getelementptr inbounds %struct.half, ptr %113, i32 0, i32 1
  %115 = load i64, ptr %6, align 8
  %116 = getelementptr inbounds [512 x i64], ptr %114, i64 0, i64 %115
  store i64 %112, ptr %116, align 8
  %117 = load i64, ptr %4, align 8
  %118 = load ptr, ptr %2, align 8
  %119 = getelementptr inbounds %struct.half, ptr %118, i32 0, i32 2
  %120 = load i64, ptr %3, align 8
  %121 = getelementptr inbounds [512 x i64], ptr %119, i64 0, i64 %120
  store i64 %117, ptr %121, align 8
  %122 = load i64, ptr %6, align 8
  %123 = load ptr, ptr %2, align 8
  %124 = getelementptr inbounds %struct.half, ptr %123, i32 0, i32 3
  %125 = load i64, ptr %3, align 8
  %126 = add nsw i64 %125, 1
  store i64 %126, ptr %3, align 8
  %127 = getelementptr inbounds [512 x i64], ptr %124, i64 0, i64 %125
  store i64 %122, ptr %127, align 8
  %128 = load i64, ptr %6, align 8
  %129 = add nsw i64 %128, 1
  %130 = load ptr, ptr %2, align 8
  %131 = getelementptr inbounds %struct.half, ptr %130, i32 0, i32 2
  %132 = load i64, ptr %3, align 8
  %133 = getelementptr inbounds [512 x i64], ptr %131, i64 0, i64 %132
  store i64 %129, ptr %133, align 8
  %134 = load i64, ptr %5, align 8
  %135 = load ptr, ptr %2, align 8
  %136 = getelementptr inbounds %struct.half, ptr %135, i32 0, i32 3
  %137 = load i64, ptr %3, align 8
  %138 = add nsw i64 %137, 1
  store i64 %138, ptr %3, align 8
  %139 = getelementptr inbounds [512 x i64], ptr %136, i64 0, i64 %137
  store i64 %134, ptr %139, align 8
  br label %19, !llvm.loop !11

140:                                              ; preds = %19
  ret void
}

attributes #0 = { noinline nounwind optnone uwtable "frame-pointer"="all" "min-legal-vector-width"="0" "no-trapping-math"="true" "stack-protector-buffer-size"="8" "target-cpu"="x86-64" "target-features"="+cx8,+fxsr,+mmx,+sse,+sse2,+x87" "tune-cpu"="generic" }
attributes #1 = { "frame-pointer"="all" "no-trapping-math"="true" "stack-protector-buffer-size"="8" "target-cpu"="x86-64" "target-features"="+cx8,+fxsr,+mmx,+sse,+sse2,+x87" "tune-cpu"="generic" }
attributes #2 = { nounwind "frame-pointer"="all" "no-trapping-math"="true" "stack-protector-buffer-size"="8" "target-cpu"="x86-64" "target-features"="+cx8,+fxsr,+mmx,+sse,+sse2,+x87" "tune-cpu"="generic" }
attributes #3 = { nounwind }

!llvm.module.flags = !{!0, !1, !2, !3, !4}
!llvm.ident = !{!5}

!0 = !{i32 1, !"wchar_size", i32 4}
!1 = !{i32 8, !"PIC Level", i32 2}
!2 = !{i32 7, !"PIE Level", i32 2}
!3 = !{i32 7, !"uwtable", i32 2}
!4 = !{i32 7, !"frame-pointer", i32 2}
!5 = !{!"Debian clang version 16.0.6 (15~deb12u1)"}
!6 = distinct !{!6, !7}
!7 = !{!"llvm.loop.mustprogress"}
!8 = distinct !{!8, !7}
!9 = distinct !{!9, !7}
!10 = distinct !{!10, !7}
!11 = distinct !{!11, !7}
!12 = distinct !{!12, !7}
