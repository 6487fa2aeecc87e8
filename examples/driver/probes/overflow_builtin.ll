; ModuleID = 'driver/probes/overflow_builtin.c'
source_filename = "driver/probes/overflow_builtin.c"
target datalayout = "e-m:e-p270:32:32-p271:32:32-p272:64:64-i64:64-f80:128-n8:16:32:64-S128"
target triple = "x86_64-pc-linux-gnu"

; Function Attrs: noinline nounwind optnone uwtable
define dso_local i32 @main() #0 !dbg !12 {
  %1 = alloca i32, align 4
  %2 = alloca i32, align 4
  store i32 0, ptr %1, align 4
  call void @llvm.dbg.declare(metadata ptr %2, metadata !15, metadata !DIExpression()), !dbg !16
  %3 = call i64 @pg_in_len(), !dbg !17
  %4 = trunc i64 %3 to i32, !dbg !18
  %5 = add nsw i32 %4, 1, !dbg !19
  %6 = call { i32, i1 } @llvm.sadd.with.overflow.i32(i32 2147483647, i32 %5), !dbg !20
  %7 = extractvalue { i32, i1 } %6, 1, !dbg !20
  %8 = extractvalue { i32, i1 } %6, 0, !dbg !20
  store i32 %8, ptr %2, align 4, !dbg !20
  %9 = zext i1 %7 to i64, !dbg !20
  call void @pg_out(i64 noundef %9), !dbg !21
  ret i32 0, !dbg !22
}

; Function Attrs: nocallback nofree nosync nounwind speculatable willreturn memory(none)
declare void @llvm.dbg.declare(metadata, metadata, metadata) #1

declare void @pg_out(i64 noundef) #2

declare i64 @pg_in_len() #2

; Function Attrs: nocallback nofree nosync nounwind speculatable willreturn memory(none)
declare { i32, i1 } @llvm.sadd.with.overflow.i32(i32, i32) #1

attributes #0 = { noinline nounwind optnone uwtable "frame-pointer"="all" "min-legal-vector-width"="0" "no-trapping-math"="true" "stack-protector-buffer-size"="8" "target-cpu"="x86-64" "target-features"="+cx8,+fxsr,+mmx,+sse,+sse2,+x87" "tune-cpu"="generic" }
attributes #1 = { nocallback nofree nosync nounwind speculatable willreturn memory(none) }
attributes #2 = { "frame-pointer"="all" "no-trapping-math"="true" "stack-protector-buffer-size"="8" "target-cpu"="x86-64" "target-features"="+cx8,+fxsr,+mmx,+sse,+sse2,+x87" "tune-cpu"="generic" }

!llvm.dbg.cu = !{!0}
!llvm.module.flags = !{!4, !5, !6, !7, !8, !9, !10}
!llvm.ident = !{!11}

!0 = distinct !DICompileUnit(language: DW_LANG_C11, file: !1, producer: "Debian clang version 16.0.6 (15~deb12u1)", isOptimized: false, runtimeVersion: 0, emissionKind: FullDebug, retainedTypes: !2, splitDebugInlining: false, nameTableKind: None)
!1 = !DIFile(filename: "driver/probes/overflow_builtin.c", directory: ".", checksumkind: CSK_MD5, checksum: "729c81ed999cf5653a01cf8a1fe05917")
!2 = !{!3}
!3 = !DIBasicType(name: "int", size: 32, encoding: DW_ATE_signed)
!4 = !{i32 7, !"Dwarf Version", i32 5}
!5 = !{i32 2, !"Debug Info Version", i32 3}
!6 = !{i32 1, !"wchar_size", i32 4}
!7 = !{i32 8, !"PIC Level", i32 2}
!8 = !{i32 7, !"PIE Level", i32 2}
!9 = !{i32 7, !"uwtable", i32 2}
!10 = !{i32 7, !"frame-pointer", i32 2}
!11 = !{!"Debian clang version 16.0.6 (15~deb12u1)"}
!12 = distinct !DISubprogram(name: "main", scope: !1, file: !1, line: 3, type: !13, scopeLine: 3, flags: DIFlagPrototyped, spFlags: DISPFlagDefinition, unit: !0, retainedNodes: !14)
!13 = !DISubroutineType(types: !2)
!14 = !{}
!15 = !DILocalVariable(name: "r", scope: !12, file: !1, line: 4, type: !3)
!16 = !DILocation(line: 4, column: 5, scope: !12)
!17 = !DILocation(line: 5, column: 48, scope: !12)
!18 = !DILocation(line: 5, column: 43, scope: !12)
!19 = !DILocation(line: 5, column: 60, scope: !12)
!20 = !DILocation(line: 5, column: 8, scope: !12)
!21 = !DILocation(line: 5, column: 1, scope: !12)
!22 = !DILocation(line: 6, column: 1, scope: !12)
