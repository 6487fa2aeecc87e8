; ModuleID = 'extremes.c'
source_filename = "extremes.c"
target datalayout = "e-m:e-p270:32:32-p271:32:32-p272:64:64-i64:64-f80:128-n8:16:32:64-S128"
target triple = "x86_64-pc-linux-gnu"

%struct.part = type { ptr, ptr, i64, i64, i64 }

@numbers = internal global [512 x i64] zeroinitializer, align 16
@parts = internal global [2 x %struct.part] zeroinitializer, align 16

; Function Attrs: noinline nounwind optnone uwtable
define dso_local i32 @main() #0 {
  %1 = alloca i32, align 4
  %2 = alloca [2 x i64], align 16
  %3 = alloca i64, align 8
  %4 = alloca i64, align 8
  %5 = alloca i64, align 8
  %6 = alloca i64, align 8
  %7 = alloca i64, align 8
  %8 = alloca i32, align 4
  store i32 0, ptr %1, align 4
  store i64 0, ptr %3, align 8
  br label %9

9:                                                ; preds = %18, %0
  %10 = load i64, ptr %3, align 8
  %11 = call i64 @pg_in_len()
  %12 = icmp slt i64 %10, %11
  br i1 %12, label %13, label %21

13:                                               ; preds = %9
  %14 = load i64, ptr %3, align 8
  %15 = call i64 @pg_in(i64 noundef %14)
  %16 = load i64, ptr %3, align 8
  %17 = getelementptr inbounds [512 x i64], ptr @numbers, i64 0, i64 %16
  store i64 %15, ptr %17, align 8
  br label %18

18:                                               ; preds = %13
  %19 = load i64, ptr %3, align 8
  %20 = add nsw i64 %19, 1
  store i64 %20, ptr %3, align 8
  br label %9, !llvm.loop !6

21:                                               ; preds = %9
  store i64 0, ptr %4, align 8
  br label %22

22:                                               ; preds = %54, %21
  %23 = load i64, ptr %4, align 8
  %24 = icmp slt i64 %23, 2
  br i1 %24, label %25, label %57

25:                                               ; preds = %22
  %26 = call i64 @pg_in_len()
  %27 = load i64, ptr %4, align 8
  %28 = mul nsw i64 %26, %27
  %29 = sdiv i64 %28, 2
  %30 = getelementptr inbounds i64, ptr @numbers, i64 %29
  %31 = load i64, ptr %4, align 8
  %32 = getelementptr inbounds [2 x %struct.part], ptr @parts, i64 0, i64 %31
  %33 = getelementptr inbounds %struct.part, ptr %32, i32 0, i32 0
  store ptr %30, ptr %33, align 8
  %34 = call i64 @pg_in_len()
  %35 = load i64, ptr %4, align 8
  %36 = add nsw i64 %35, 1
  %37 = mul nsw i64 %34, %36
  %38 = sdiv i64 %37, 2
  %39 = getelementptr inbounds i64, ptr @numbers, i64 %38
  %40 = load i64, ptr %4, align 8
  %41 = getelementptr inbounds [2 x %struct.part], ptr @parts, i64 0, i64 %40
  %42 = getelementptr inbounds %struct.part, ptr %41, i32 0, i32 1
  store ptr %39, ptr %42, align 8
  %43 = load i64, ptr %4, align 8
  %44 = getelementptr inbounds [2 x %struct.part], ptr @parts, i64 0, i64 %43
  %45 = getelementptr inbounds %struct.part, ptr %44, i32 0, i32 2
  store i64 9223372036854775807, ptr %45, align 8
  %46 = load i64, ptr %4, align 8
  %47 = getelementptr inbounds [2 x %struct.part], ptr @parts, i64 0, i64 %46
  %48 = getelementptr inbounds %struct.part, ptr %47, i32 0, i32 3
  store i64 -9223372036854775808, ptr %48, align 8
  %49 = load i64, ptr %4, align 8
  %50 = getelementptr inbounds [2 x i64], ptr %2, i64 0, i64 %49
  %51 = load i64, ptr %4, align 8
  %52 = getelementptr inbounds [2 x %struct.part], ptr @parts, i64 0, i64 %51
  %53 = call i32 @pthread_create(ptr noundef %50, ptr noundef null, ptr noundef @look, ptr noundef %52) #3
  br label %54

54:                                               ; preds = %25
  %55 = load i64, ptr %4, align 8
  %56 = add nsw i64 %55, 1
  store i64 %56, ptr %4, align 8
  br label %22, !llvm.loop !8

57:                                               ; preds = %22
  store i64 9223372036854775807, ptr %5, align 8
  store i64 -9223372036854775808, ptr %6, align 8
  store i64 0, ptr %7, align 8
  store i32 0, ptr %8, align 4
  br label %58

58:                                               ; preds = %108, %57
  %59 = load i32, ptr %8, align 4
  %60 = icmp slt i32 %59, 2
  br i1 %60, label %61, label %111

61:                                               ; preds = %58
  %62 = load i32, ptr %8, align 4
  %63 = sext i32 %62 to i64
  %64 = getelementptr inbounds [2 x i64], ptr %2, i64 0, i64 %63
  %65 = load i64, ptr %64, align 8
  %66 = call i32 @pthread_join(i64 noundef %65, ptr noundef null)
  %67 = load i32, ptr %8, align 4
  %68 = sext i32 %67 to i64
  %69 = getelementptr inbounds [2 x %struct.part], ptr @parts, i64 0, i64 %68
  %70 = getelementptr inbounds %struct.part, ptr %69, i32 0, i32 2
  %71 = load i64, ptr %70, align 8
  %72 = load i64, ptr %5, align 8
  %73 = icmp slt i64 %71, %72
  br i1 %73, label %74, label %80

74:                                               ; preds = %61
  %75 = load i32, ptr %8, align 4
  %76 = sext i32 %75 to i64
  %77 = getelementptr inbounds [2 x %struct.part], ptr @parts, i64 0, i64 %76
  %78 = getelementptr inbounds %struct.part, ptr %77, i32 0, i32 2
  %79 = load i64, ptr %78, align 8
  br label %82

80:                                               ; preds = %61
  %81 = load i64, ptr %5, align 8
  br label %82

82:                                               ; preds = %80, %74
  %83 = phi i64 [ %79, %74 ], [ %81, %80 ]
  store i64 %83, ptr %5, align 8
  %84 = load i32, ptr %8, align 4
  %85 = sext i32 %84 to i64
  %86 = getelementptr inbounds [2 x %struct.part], ptr @parts, i64 0, i64 %85
  %87 = getelementptr inbounds %struct.part, ptr %86, i32 0, i32 3
  %88 = load i64, ptr %87, align 8
  %89 = load i64, ptr %6, align 8
  %90 = icmp sgt i64 %88, %89
  br i1 %90, label %91, label %97

91:                                               ; preds = %82
  %92 = load i32, ptr %8, align 4
  %93 = sext i32 %92 to i64
  %94 = getelementptr inbounds [2 x %struct.part], ptr @parts, i64 0, i64 %93
  %95 = getelementptr inbounds %struct.part, ptr %94, i32 0, i32 3
  %96 = load i64, ptr %95, align 8
  br label %99

97:                                               ; preds = %82
  %98 = load i64, ptr %6, align 8
  br label %99

99:                                               ; preds = %97, %91
  %100 = phi i64 [ %96, %91 ], [ %98, %97 ]
  store i64 %100, ptr %6, align 8
  %101 = load i32, ptr %8, align 4
  %102 = sext i32 %101 to i64
  %103 = getelementptr inbounds [2 x %struct.part], ptr @parts, i64 0, i64 %102
  %104 = getelementptr inbounds %struct.part, ptr %103, i32 0, i32 4
  %105 = load i64, ptr %104, align 8
  %106 = load i64, ptr %7, align 8
  %107 = or i64 %106, %105
  store i64 %107, ptr %7, align 8
  br label %108

108:                                              ; preds = %99
  %109 = load i32, ptr %8, align 4
  %110 = add nsw i32 %109, 1
  store i32 %110, ptr %8, align 4
  br label %58, !llvm.loop !9

111:                                              ; preds = %58
  %112 = load i64, ptr %5, align 8
  call void @pg_out(i64 noundef %112)
  %113 = load i64, ptr %6, align 8
  call void @pg_out(i64 noundef %113)
  %114 = load i64, ptr %7, align 8
  call void @pg_out(i64 noundef %114)
  ret i32 0
}

declare i64 @pg_in_len() #1

declare i64 @pg_in(i64 noundef) #1

; Function Attrs: nounwind
declare i32 @pthread_create(ptr noundef, ptr noundef, ptr noundef, ptr noundef) #2

; Function Attrs: noinline nounwind optnone uwtable
define internal ptr @look(ptr noundef %0) #0 {
  %2 = alloca ptr, align 8
  %3 = alloca ptr, align 8
  %4 = alloca ptr, align 8
  %5 = alloca ptr, align 8
  %6 = alloca ptr, align 8
  store ptr %0, ptr %3, align 8
  %7 = load ptr, ptr %3, align 8
  store ptr %7, ptr %4, align 8
  %8 = load ptr, ptr %4, align 8
  %9 = getelementptr inbounds %struct.part, ptr %8, i32 0, i32 0
  %10 = load ptr, ptr %9, align 8
  store ptr %10, ptr %5, align 8
  br label %11

11:                                               ; preds = %42, %1
  %12 = load ptr, ptr %5, align 8
  %13 = load ptr, ptr %4, align 8
  %14 = getelementptr inbounds %struct.part, ptr %13, i32 0, i32 1
  %15 = load ptr, ptr %14, align 8
  %16 = icmp ult ptr %12, %15
  br i1 %16, label %17, label %45

17:                                               ; preds = %11
  %18 = load ptr, ptr %5, align 8
  %19 = load i64, ptr %18, align 8
  %20 = load ptr, ptr %4, align 8
  %21 = getelementptr inbounds %struct.part, ptr %20, i32 0, i32 2
  %22 = load i64, ptr %21, align 8
  %23 = icmp slt i64 %19, %22
  br i1 %23, label %24, label %29

24:                                               ; preds = %17
  %25 = load ptr, ptr %5, align 8
  %26 = load i64, ptr %25, align 8
  %27 = load ptr, ptr %4, align 8
  %28 = getelementptr inbounds %struct.part, ptr %27, i32 0, i32 2
  store i64 %26, ptr %28, align 8
  br label %29

29:                                               ; preds = %24, %17
  %30 = load ptr, ptr %5, align 8
  %31 = load i64, ptr %30, align 8
  %32 = load ptr, ptr %4, align 8
  %33 = getelementptr inbounds %struct.part, ptr %32, i32 0, i32 3
  %34 = load i64, ptr %33, align 8
  %35 = icmp sgt i64 %31, %34
  br i1 %35, label %36, label %41

36:                                               ; preds = %29
  %37 = load ptr, ptr %5, align 8
  %38 = load i64, ptr %37, align 8
  %39 = load ptr, ptr %4, align 8
  %40 = getelementptr inbounds %struct.part, ptr %39, i32 0, i32 3
  store i64 %38, ptr %40, align 8
  br label %41

41:                                               ; preds = %36, %29
  br label %42

42:                                               ; preds = %41
  %43 = load ptr, ptr %5, align 8
  %44 = getelementptr inbounds i64, ptr %43, i32 1
  store ptr %44, ptr %5, align 8
  br label %11, !llvm.loop !10

45:                                               ; preds = %11
  %46 = load ptr, ptr %4, align 8
  %47 = getelementptr inbounds %struct.part, ptr %46, i32 0, i32 0
  %48 = load ptr, ptr %47, align 8
  store ptr %48, ptr %6, align 8
  br label %49

49:                                               ; preds = %63, %45
  %50 = load ptr, ptr %6, align 8
  %51 = load ptr, ptr %4, align 8
  %52 = getelementptr inbounds %struct.part, ptr %51, i32 0, i32 1
  %53 = load ptr, ptr %52, align 8
  %54 = icmp ult ptr %50, %53
  br i1 %54, label %55, label %66

55:                                               ; preds = %49
  %56 = load ptr, ptr %6, align 8
  %57 = load i64, ptr %56, align 8
  %58 = icmp eq i64 %57, 7
  br i1 %58, label %59, label %62

59:                                               ; preds = %55
  %60 = load ptr, ptr %4, align 8
  %61 = getelementptr inbounds %struct.part, ptr %60, i32 0, i32 4
  store i64 1, ptr %61, align 8
  store ptr null, ptr %2, align 8
  br label %67

62:                                               ; preds = %55
  br label %63

63:                                               ; preds = %62
  %64 = load ptr, ptr %6, align 8
  %65 = getelementptr inbounds i64, ptr %64, i32 1
  store ptr %65, ptr %6, align 8
  br label %49, !llvm.loop !11

66:                                               ; preds = %49
  store ptr null, ptr %2, align 8
  br label %67

67:                                               ; preds = %66, %59
  %68 = load ptr, ptr %2, align 8
  ret ptr %68
}

declare i32 @pthread_join(i64 noundef, ptr noundef) #1

declare void @pg_out(i64 noundef) #1

attributes #0 = { noinline nounwind optnone uwtable "frame-pointer"="all" "min-legal-vector-width"="0" "no-trapping-math"="true" "stack-protector-buffer-size"="8" "target-cpu"="x86-64" "target-features"="+cx8,+fxsr,+mmx,+sse,+sse2,+x87" "tune-cpu"="generic" }
attributes #1 = { "frame-pointer"="all" "no-trapping-math"="true" "stack-protector-buffer-size"="8" "target-cpu"="x86-64" "target-features"="+cx8,+fxsr,+mmx,+sse,+sse2,+x87" "tune-cpu"="generic" }
attributes #2 = { nounwind "frame-pointer"="all" "no-trapping-math"="true" "stack-protector-buffer-size"="8" "target-cpu"="x86-64" "target-features"="+cx8,+fxsr,+mmx,+sse,+sse2,+x87" "tune-cpu"="generic" }
attributes #3 = { nounwind }

!llvm.module.flags = !{!0, !1, !2, !3, !4}
!llvm.ident = !{!5}

!0 = !{i32 1, !"wchar_size", i32 4}
!1 = !{i32 8, !"PIC Level", i32 2}
!2 = !{i32 7, !"PIE Level", i32 2}
!3 = !{i32 7, !"uwtable", i32 2}
!4 = !{i32 7, !"frame-pointer", i32 2}
!5 = !{!"Debian clang version 16.0.6 (15~deb12u1)"}
!6 = distinct !{!6, !7}
!7 = !{!"llvm.loop.mustprogress"}
!8 = distinct !{!8, !7}
!9 = distinct !{!9, !7}
!10 = distinct !{!10, !7}
!11 = distinct !{!11, !7}
