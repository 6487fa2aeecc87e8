; ModuleID = 'driver/probes/structure_by_value_large.c'
source_filename = "driver/probes/structure_by_value_large.c"
target datalayout = "e-m:e-p270:32:32-p271:32:32-p272:64:64-i64:64-f80:128-n8:16:32:64-S128"
target triple = "x86_64-pc-linux-gnu"

%struct.s = type { [5 x i64] }

; Function Attrs: noinline nounwind optnone uwtable
define dso_local i32 @main() #0 {
  %1 = alloca i32, align 4
  %2 = alloca %struct.s, align 8
  store i32 0, ptr %1, align 4
  call void @llvm.memset.p0.i64(ptr align 8 %2, i8 0, i64 40, i1 false)
  %3 = getelementptr inbounds %struct.s, ptr %2, i32 0, i32 0
  %4 = getelementptr inbounds [5 x i64], ptr %3, i32 0, i32 0
  store i64 1, ptr %4, align 8
  %5 = getelementptr inbounds [5 x i64], ptr %3, i32 0, i32 1
  store i64 2, ptr %5, align 8
  %6 = getelementptr inbounds [5 x i64], ptr %3, i32 0, i32 2
  store i64 3, ptr %6, align 8
  %7 = getelementptr inbounds [5 x i64], ptr %3, i32 0, i32 3
  store i64 4, ptr %7, align 8
  %8 = getelementptr inbounds [5 x i64], ptr %3, i32 0, i32 4
  store i64 5, ptr %8, align 8
  %9 = call i64 @sum(ptr noundef byval(%struct.s) align 8 %2)
  call void @pg_out(i64 noundef %9)
  ret i32 0
}

; Function Attrs: nocallback nofree nounwind willreturn memory(argmem: write)
declare void @llvm.memset.p0.i64(ptr nocapture writeonly, i8, i64, i1 immarg) #1

declare void @pg_out(i64 noundef) #2

; Function Attrs: noinline nounwind optnone uwtable
define internal i64 @sum(ptr noundef byval(%struct.s) align 8 %0) #0 {
  %2 = getelementptr inbounds %struct.s, ptr %0, i32 0, i32 0
  %3 = getelementptr inbounds [5 x i64], ptr %2, i64 0, i64 0
  store i64 10, ptr %3, align 8
  %4 = getelementptr inbounds %struct.s, ptr %0, i32 0, i32 0
  %5 = getelementptr inbounds [5 x i64], ptr %4, i64 0, i64 0
  %6 = load i64, ptr %5, align 8
  %7 = getelementptr inbounds %struct.s, ptr %0, i32 0, i32 0
  %8 = getelementptr inbounds [5 x i64], ptr %7, i64 0, i64 4
  %9 = load i64, ptr %8, align 8
  %10 = add nsw i64 %6, %9
  ret i64 %10
}

attributes #0 = { noinline nounwind optnone uwtable "frame-pointer"="all" "min-legal-vector-width"="0" "no-trapping-math"="true" "stack-protector-buffer-size"="8" "target-cpu"="x86-64" "target-features"="+cx8,+fxsr,+mmx,+sse,+sse2,+x87" "tune-cpu"="generic" }
attributes #1 = { nocallback nofree nounwind willreturn memory(argmem: write) }
attributes #2 = { "frame-pointer"="all" "no-trapping-math"="true" "stack-protector-buffer-size"="8" "target-cpu"="x86-64" "target-features"="+cx8,+fxsr,+mmx,+sse,+sse2,+x87" "tune-cpu"="generic" }

!llvm.module.flags = !{!0, !1, !2, !3, !4}
!llvm.ident = !{!5}

!0 = !{i32 1, !"wchar_size", i32 4}
!1 = !{i32 8, !"PIC Level", i32 2}
!2 = !{i32 7, !"PIE Level", i32 2}
!3 = !{i32 7, !"uwtable", i32 2}
!4 = !{i32 7, !"frame-pointer", i32 2}
!5 = !{!"Debian clang version 16.0.6 (15~deb12u1)"}
