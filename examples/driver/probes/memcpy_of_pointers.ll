; ModuleID = 'driver/probes/memcpy_of_pointers.c'
source_filename = "driver/probes/memcpy_of_pointers.c"
target datalayout = "e-m:e-p270:32:32-p271:32:32-p272:64:64-i64:64-f80:128-n8:16:32:64-S128"
target triple = "x86_64-pc-linux-gnu"

; Function Attrs: noinline nounwind optnone uwtable
define dso_local i32 @main() #0 {
  %1 = alloca i32, align 4
  %2 = alloca i64, align 8
  %3 = alloca [2 x ptr], align 16
  %4 = alloca [2 x ptr], align 16
  store i32 0, ptr %1, align 4
  store i64 4, ptr %2, align 8
  %5 = getelementptr inbounds [2 x ptr], ptr %3, i64 0, i64 0
  store ptr %2, ptr %5, align 8
  %6 = getelementptr inbounds ptr, ptr %5, i64 1
  store ptr %2, ptr %6, align 8
  %7 = getelementptr inbounds [2 x ptr], ptr %4, i64 0, i64 0
  %8 = getelementptr inbounds [2 x ptr], ptr %3, i64 0, i64 0
  call void @llvm.memcpy.p0.p0.i64(ptr align 16 %7, ptr align 16 %8, i64 16, i1 false)
  %9 = getelementptr inbounds [2 x ptr], ptr %4, i64 0, i64 1
  %10 = load ptr, ptr %9, align 8
  %11 = load i64, ptr %10, align 8
  call void @pg_out(i64 noundef %11)
  ret i32 0
}

; Function Attrs: nocallback nofree nounwind willreturn memory(argmem: readwrite)
declare void @llvm.memcpy.p0.p0.i64(ptr noalias nocapture writeonly, ptr noalias nocapture readonly, i64, i1 immarg) #1

declare void @pg_out(i64 noundef) #2

attributes #0 = { noinline nounwind optnone uwtable "frame-pointer"="all" "min-legal-vector-width"="0" "no-trapping-math"="true" "stack-protector-buffer-size"="8" "target-cpu"="x86-64" "target-features"="+cx8,+fxsr,+mmx,+sse,+sse2,+x87" "tune-cpu"="generic" }
attributes #1 = { nocallback nofree nounwind willreturn memory(argmem: readwrite) }
attributes #2 = { "frame-pointer"="all" "no-trapping-math"="true" "stack-protector-buffer-size"="8" "target-cpu"="x86-64" "target-features"="+cx8,+fxsr,+mmx,+sse,+sse2,+x87" "tune-cpu"="generic" }

!llvm.module.flags = !{!0, !1, !2, !3, !4}
!llvm.ident = !{!5}

!0 = !{i32 1, !"wchar_size", i32 4}
!1 = !{i32 8, !"PIC Level", i32 2}
!2 = !{i32 7, !"PIE Level", i32 2}
!3 = !{i32 7, !"uwtable", i32 2}
!4 = !{i32 7, !"frame-pointer", i32 2}
!5 = !{!"Debian clang version 16.0.6 (15~deb12u1)"}
