; ModuleID = 'driver/probes/integer_types.c'
source_filename = "driver/probes/integer_types.c"
target datalayout = "e-m:e-p270:32:32-p271:32:32-p272:64:64-i64:64-f80:128-n8:16:32:64-S128"
target triple = "x86_64-pc-linux-gnu"

; Function Attrs: noinline nounwind optnone uwtable
define dso_local i32 @main() #0 {
  %1 = alloca i32, align 4
  %2 = alloca i8, align 1
  %3 = alloca i8, align 1
  %4 = alloca i16, align 2
  %5 = alloca i16, align 2
  store i32 0, ptr %1, align 4
  store i8 -1, ptr %2, align 1
  store i8 -1, ptr %3, align 1
  store i16 -2, ptr %4, align 2
  store i16 -1, ptr %5, align 2
  %6 = load i8, ptr %2, align 1
  %7 = sext i8 %6 to i32
  %8 = load i8, ptr %3, align 1
  %9 = zext i8 %8 to i32
  %10 = add nsw i32 %7, %9
  %11 = load i16, ptr %4, align 2
  %12 = sext i16 %11 to i32
  %13 = add nsw i32 %10, %12
  %14 = load i16, ptr %5, align 2
  %15 = zext i16 %14 to i32
  %16 = add nsw i32 %13, %15
  %17 = sext i32 %16 to i64
  call void @pg_out(i64 noundef %17)
  ret i32 0
}

declare void @pg_out(i64 noundef) #1

attributes #0 = { noinline nounwind optnone uwtable "frame-pointer"="all" "min-legal-vector-width"="0" "no-trapping-math"="true" "stack-protector-buffer-size"="8" "target-cpu"="x86-64" "target-features"="+cx8,+fxsr,+mmx,+sse,+sse2,+x87" "tune-cpu"="generic" }
attributes #1 = { "frame-pointer"="all" "no-trapping-math"="true" "stack-protector-buffer-size"="8" "target-cpu"="x86-64" "target-features"="+cx8,+fxsr,+mmx,+sse,+sse2,+x87" "tune-cpu"="generic" }

!llvm.module.flags = !{!0, !1, !2, !3, !4}
!llvm.ident = !{!5}

!0 = !{i32 1, !"wchar_size", i32 4}
!1 = !{i32 8, !"PIC Level", i32 2}
!2 = !{i32 7, !"PIE Level", i32 2}
!3 = !{i32 7, !"uwtable", i32 2}
!4 = !{i32 7, !"frame-pointer", i32 2}
!5 = !{!"Debian clang version 16.0.6 (15~deb12u1)"}
