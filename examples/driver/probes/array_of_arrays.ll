; ModuleID = 'driver/probes/array_of_arrays.c'
source_filename = "driver/probes/array_of_arrays.c"
target datalayout = "e-m:e-p270:32:32-p271:32:32-p272:64:64-i64:64-f80:128-n8:16:32:64-S128"
target triple = "x86_64-pc-linux-gnu"

; Function Attrs: noinline nounwind optnone uwtable
define dso_local i32 @main() #0 {
  %1 = alloca i32, align 4
  %2 = alloca [3 x [4 x i32]], align 16
  store i32 0, ptr %1, align 4
  call void @llvm.memset.p0.i64(ptr align 16 %2, i8 0, i64 48, i1 false)
  %3 = getelementptr inbounds [3 x [4 x i32]], ptr %2, i32 0, i32 0
  %4 = getelementptr inbounds [4 x i32], ptr %3, i32 0, i32 0
  store i32 1, ptr %4, align 16
  %5 = getelementptr inbounds [4 x i32], ptr %3, i32 0, i32 1
  store i32 2, ptr %5, align 4
  %6 = getelementptr inbounds [3 x [4 x i32]], ptr %2, i32 0, i32 1
  %7 = getelementptr inbounds [4 x i32], ptr %6, i32 0, i32 0
  store i32 3, ptr %7, align 16
  %8 = getelementptr inbounds [3 x [4 x i32]], ptr %2, i64 0, i64 0
  %9 = getelementptr inbounds [4 x i32], ptr %8, i64 0, i64 1
  %10 = load i32, ptr %9, align 4
  %11 = getelementptr inbounds [3 x [4 x i32]], ptr %2, i64 0, i64 1
  %12 = getelementptr inbounds [4 x i32], ptr %11, i64 0, i64 0
  %13 = load i32, ptr %12, align 16
  %14 = add nsw i32 %10, %13
  %15 = getelementptr inbounds [3 x [4 x i32]], ptr %2, i64 0, i64 2
  %16 = getelementptr inbounds [4 x i32], ptr %15, i64 0, i64 3
  %17 = load i32, ptr %16, align 4
  %18 = add nsw i32 %14, %17
  %19 = sext i32 %18 to i64
  call void @pg_out(i64 noundef %19)
  ret i32 0
}

; Function Attrs: nocallback nofree nounwind willreturn memory(argmem: write)
declare void @llvm.memset.p0.i64(ptr nocapture writeonly, i8, i64, i1 immarg) #1

declare void @pg_out(i64 noundef) #2

attributes #0 = { noinline nounwind optnone uwtable "frame-pointer"="all" "min-legal-vector-width"="0" "no-trapping-math"="true" "stack-protector-buffer-size"="8" "target-cpu"="x86-64" "target-features"="+cx8,+fxsr,+mmx,+sse,+sse2,+x87" "tune-cpu"="generic" }
attributes #1 = { nocallback nofree nounwind willreturn memory(argmem: write) }
attributes #2 = { "frame-pointer"="all" "no-trapping-math"="true" "stack-protector-buffer-size"="8" "target-cpu"="x86-64" "target-features"="+cx8,+fxsr,+mmx,+sse,+sse2,+x87" "tune-cpu"="generic" }

!llvm.module.flags = !{!0, !1, !2, !3, !4}
!llvm.ident = !{!5}

!0 = !{i32 1, !"wchar_size", i32 4}
!1 = !{i32 8, !"PIC Level", i32 2}
!2 = !{i32 7, !"PIE Level", i32 2}
!3 = !{i32 7, !"uwtable", i32 2}
!4 = !{i32 7, !"frame-pointer", i32 2}
!5 = !{!"Debian clang version 16.0.6 (15~deb12u1)"}
