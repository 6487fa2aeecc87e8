; ModuleID = 'driver/probes/sum_of_a_loop.c'
source_filename = "driver/probes/sum_of_a_loop.c"
target datalayout = "e-m:e-p270:32:32-p271:32:32-p272:64:64-i64:64-f80:128-n8:16:32:64-S128"
target triple = "x86_64-pc-linux-gnu"

; Function Attrs: noinline nounwind optnone uwtable
define dso_local i32 @main() #0 {
  %1 = alloca i32, align 4
  store i32 0, ptr %1, align 4
  %2 = call i64 @pg_in(i64 noundef 1)
  %3 = call i64 @sum(i64 noundef %2)
  call void @pg_out(i64 noundef %3)
  %4 = call i64 @pg_in(i64 noundef 1)
  %5 = add nsw i64 %4, 4
  %6 = call i64 @squares(i64 noundef %5)
  call void @pg_out(i64 noundef %6)
  ret i32 0
}

declare void @pg_out(i64 noundef) #1

; Function Attrs: noinline nounwind optnone uwtable
define internal i64 @sum(i64 noundef %0) #0 {
  %2 = alloca i64, align 8
  %3 = alloca i64, align 8
  %4 = alloca i64, align 8
  store i64 %0, ptr %2, align 8
  store i64 0, ptr %3, align 8
  store i64 0, ptr %4, align 8
  br label %5

5:                                                ; preds = %13, %1
  %6 = load i64, ptr %4, align 8
  %7 = load i64, ptr %2, align 8
  %8 = icmp slt i64 %6, %7
  br i1 %8, label %9, label %16

9:                                                ; preds = %5
  %10 = load i64, ptr %4, align 8
  %11 = load i64, ptr %3, align 8
  %12 = add nsw i64 %11, %10
  store i64 %12, ptr %3, align 8
  br label %13

13:                                               ; preds = %9
  %14 = load i64, ptr %4, align 8
  %15 = add nsw i64 %14, 1
  store i64 %15, ptr %4, align 8
  br label %5, !llvm.loop !6

16:                                               ; preds = %5
  %17 = load i64, ptr %3, align 8
  ret i64 %17
}

declare i64 @pg_in(i64 noundef) #1

; Function Attrs: noinline nounwind optnone uwtable
define internal i64 @squares(i64 noundef %0) #0 {
  %2 = alloca i64, align 8
  %3 = alloca i64, align 8
  %4 = alloca i64, align 8
  store i64 %0, ptr %2, align 8
  store i64 0, ptr %3, align 8
  store i64 0, ptr %4, align 8
  br label %5

5:                                                ; preds = %15, %1
  %6 = load i64, ptr %4, align 8
  %7 = load i64, ptr %2, align 8
  %8 = icmp slt i64 %6, %7
  br i1 %8, label %9, label %18

9:                                                ; preds = %5
  %10 = load i64, ptr %4, align 8
  %11 = load i64, ptr %4, align 8
  %12 = mul nsw i64 %10, %11
  %13 = load i64, ptr %3, align 8
  %14 = add nsw i64 %13, %12
  store i64 %14, ptr %3, align 8
  br label %15

15:                                               ; preds = %9
  %16 = load i64, ptr %4, align 8
  %17 = add nsw i64 %16, 1
  store i64 %17, ptr %4, align 8
  br label %5, !llvm.loop !8

18:                                               ; preds = %5
  %19 = load i64, ptr %3, align 8
  ret i64 %19
}

attributes #0 = { noinline nounwind optnone uwtable "frame-pointer"="all" "min-legal-vector-width"="0" "no-trapping-math"="true" "stack-protector-buffer-size"="8" "target-cpu"="x86-64" "target-features"="+cx8,+fxsr,+mmx,+sse,+sse2,+x87" "tune-cpu"="generic" }
attributes #1 = { "frame-pointer"="all" "no-trapping-math"="true" "stack-protector-buffer-size"="8" "target-cpu"="x86-64" "target-features"="+cx8,+fxsr,+mmx,+sse,+sse2,+x87" "tune-cpu"="generic" }

!llvm.module.flags = !{!0, !1, !2, !3, !4}
!llvm.ident = !{!5}

!0 = !{i32 1, !"wchar_size", i32 4}
!1 = !{i32 8, !"PIC Level", i32 2}
!2 = !{i32 7, !"PIE Level", i32 2}
!3 = !{i32 7, !"uwtable", i32 2}
!4 = !{i32 7, !"frame-pointer", i32 2}
!5 = !{!"Debian clang version 16.0.6 (15~deb12u1)"}
!6 = distinct !{!6, !7}
!7 = !{!"llvm.loop.mustprogress"}
!8 = distinct !{!8, !7}
