; ModuleID = 'driver/probes/printf_extremes.c'
source_filename = "driver/probes/printf_extremes.c"
target datalayout = "e-m:e-p270:32:32-p271:32:32-p272:64:64-i64:64-f80:128-n8:16:32:64-S128"
target triple = "x86_64-pc-linux-gnu"

@.str = private unnamed_addr constant [10 x i8] c"%d %i %u\0A\00", align 1
@.str.1 = private unnamed_addr constant [13 x i8] c"%ld\0A%lu %lu\0A\00", align 1
@.str.2 = private unnamed_addr constant [19 x i8] c"%hhd %hd %hhu %hu\0A\00", align 1

; Function Attrs: noinline nounwind optnone uwtable
define dso_local i32 @main() #0 {
  %1 = alloca i32, align 4
  store i32 0, ptr %1, align 4
  %2 = call i32 (ptr, ...) @printf(ptr noundef @.str, i32 noundef -2147483648, i32 noundef 2147483647, i32 noundef -1)
  %3 = call i32 (ptr, ...) @printf(ptr noundef @.str.1, i64 noundef -9223372036854775808, i64 noundef -1, i64 noundef -9223372036854775808)
  %4 = call i32 (ptr, ...) @printf(ptr noundef @.str.2, i32 noundef 300, i32 noundef 70000, i32 noundef 300, i32 noundef 70000)
  ret i32 0
}

declare i32 @printf(ptr noundef, ...) #1

attributes #0 = { noinline nounwind optnone uwtable "frame-pointer"="all" "min-legal-vector-width"="0" "no-trapping-math"="true" "stack-protector-buffer-size"="8" "target-cpu"="x86-64" "target-features"="+cx8,+fxsr,+mmx,+sse,+sse2,+x87" "tune-cpu"="generic" }
attributes #1 = { "frame-pointer"="all" "no-trapping-math"="true" "stack-protector-buffer-size"="8" "target-cpu"="x86-64" "target-features"="+cx8,+fxsr,+mmx,+sse,+sse2,+x87" "tune-cpu"="generic" }

!llvm.module.flags = !{!0, !1, !2, !3, !4}
!llvm.ident = !{!5}

!0 = !{i32 1, !"wchar_size", i32 4}
!1 = !{i32 8, !"PIC Level", i32 2}
!2 = !{i32 7, !"PIE Level", i32 2}
!3 = !{i32 7, !"uwtable", i32 2}
!4 = !{i32 7, !"frame-pointer", i32 2}
!5 = !{!"Debian clang version 16.0.6 (15~deb12u1)"}
