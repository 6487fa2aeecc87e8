; ModuleID = 'driver/probes/division_by_zero.c'
source_filename = "driver/probes/division_by_zero.c"
target datalayout = "e-m:e-p270:32:32-p271:32:32-p272:64:64-i64:64-f80:128-n8:16:32:64-S128"
target triple = "x86_64-pc-linux-gnu"

; Function Attrs: noinline nounwind optnone uwtable
define dso_local i32 @main() #0 !dbg !10 {
  %1 = alloca i32, align 4
  store i32 0, ptr %1, align 4
  %2 = call i64 @divided(i64 noundef 7, i64 noundef 4), !dbg !15
  call void @pg_out(i64 noundef %2), !dbg !16
  %3 = call i64 @pg_in(i64 noundef 0), !dbg !17
  %4 = call i64 @divided(i64 noundef 7, i64 noundef %3), !dbg !18
  call void @pg_out(i64 noundef %4), !dbg !19
  ret i32 0, !dbg !20
}

declare void @pg_out(i64 noundef) #1

; Function Attrs: noinline nounwind optnone uwtable
define internal i64 @divided(i64 noundef %0, i64 noundef %1) #0 !dbg !21 {
  %3 = alloca i64, align 8
  %4 = alloca i64, align 8
  %5 = alloca i64, align 8
  store i64 %0, ptr %3, align 8
  call void @llvm.dbg.declare(metadata ptr %3, metadata !25, metadata !DIExpression()), !dbg !26
  store i64 %1, ptr %4, align 8
  call void @llvm.dbg.declare(metadata ptr %4, metadata !27, metadata !DIExpression()), !dbg !28
  call void @llvm.dbg.declare(metadata ptr %5, metadata !29, metadata !DIExpression()), !dbg !30
  %6 = load i64, ptr %3, align 8, !dbg !31
  store i64 %6, ptr %5, align 8, !dbg !30
  %7 = load i64, ptr %4, align 8, !dbg !32
  %8 = icmp slt i64 %7, 3, !dbg !34
  br i1 %8, label %9, label %13, !dbg !35

9:                                                ; preds = %2
  %10 = load i64, ptr %3, align 8, !dbg !36
  %11 = load i64, ptr %4, align 8, !dbg !37
  %12 = sdiv i64 %10, %11, !dbg !38
  store i64 %12, ptr %5, align 8, !dbg !39
  br label %13, !dbg !40

13:                                               ; preds = %9, %2
  %14 = load i64, ptr %5, align 8, !dbg !41
  ret i64 %14, !dbg !42
}

declare i64 @pg_in(i64 noundef) #1

; Function Attrs: nocallback nofree nosync nounwind speculatable willreturn memory(none)
declare void @llvm.dbg.declare(metadata, metadata, metadata) #2

attributes #0 = { noinline nounwind optnone uwtable "frame-pointer"="all" "min-legal-vector-width"="0" "no-trapping-math"="true" "stack-protector-buffer-size"="8" "target-cpu"="x86-64" "target-features"="+cx8,+fxsr,+mmx,+sse,+sse2,+x87" "tune-cpu"="generic" }
attributes #1 = { "frame-pointer"="all" "no-trapping-math"="true" "stack-protector-buffer-size"="8" "target-cpu"="x86-64" "target-features"="+cx8,+fxsr,+mmx,+sse,+sse2,+x87" "tune-cpu"="generic" }
attributes #2 = { nocallback nofree nosync nounwind speculatable willreturn memory(none) }

!llvm.dbg.cu = !{!0}
!llvm.module.flags = !{!2, !3, !4, !5, !6, !7, !8}
!llvm.ident = !{!9}

!0 = distinct !DICompileUnit(language: DW_LANG_C11, file: !1, producer: "Debian clang version 16.0.6 (15~deb12u1)", isOptimized: false, runtimeVersion: 0, emissionKind: FullDebug, splitDebugInlining: false, nameTableKind: None)
!1 = !DIFile(filename: "driver/probes/division_by_zero.c", directory: ".", checksumkind: CSK_MD5, checksum: "b0c9926d0250ff90e032411333b8735b")
!2 = !{i32 7, !"Dwarf Version", i32 5}
!3 = !{i32 2, !"Debug Info Version", i32 3}
!4 = !{i32 1, !"wchar_size", i32 4}
!5 = !{i32 8, !"PIC Level", i32 2}
!6 = !{i32 7, !"PIE Level", i32 2}
!7 = !{i32 7, !"uwtable", i32 2}
!8 = !{i32 7, !"frame-pointer", i32 2}
!9 = !{!"Debian clang version 16.0.6 (15~deb12u1)"}
!10 = distinct !DISubprogram(name: "main", scope: !1, file: !1, line: 8, type: !11, scopeLine: 8, flags: DIFlagPrototyped, spFlags: DISPFlagDefinition, unit: !0, retainedNodes: !14)
!11 = !DISubroutineType(types: !12)
!12 = !{!13}
!13 = !DIBasicType(name: "int", size: 32, encoding: DW_ATE_signed)
!14 = !{}
!15 = !DILocation(line: 9, column: 12, scope: !10)
!16 = !DILocation(line: 9, column: 5, scope: !10)
!17 = !DILocation(line: 10, column: 23, scope: !10)
!18 = !DILocation(line: 10, column: 12, scope: !10)
!19 = !DILocation(line: 10, column: 5, scope: !10)
!20 = !DILocation(line: 11, column: 5, scope: !10)
!21 = distinct !DISubprogram(name: "divided", scope: !1, file: !1, line: 2, type: !22, scopeLine: 2, flags: DIFlagPrototyped, spFlags: DISPFlagLocalToUnit | DISPFlagDefinition, unit: !0, retainedNodes: !14)
!22 = !DISubroutineType(types: !23)
!23 = !{!24, !24, !24}
!24 = !DIBasicType(name: "long", size: 64, encoding: DW_ATE_signed)
!25 = !DILocalVariable(name: "a", arg: 1, scope: !21, file: !1, line: 2, type: !24)
!26 = !DILocation(line: 2, column: 26, scope: !21)
!27 = !DILocalVariable(name: "b", arg: 2, scope: !21, file: !1, line: 2, type: !24)
!28 = !DILocation(line: 2, column: 34, scope: !21)
!29 = !DILocalVariable(name: "n", scope: !21, file: !1, line: 3, type: !24)
!30 = !DILocation(line: 3, column: 10, scope: !21)
!31 = !DILocation(line: 3, column: 14, scope: !21)
!32 = !DILocation(line: 4, column: 9, scope: !33)
!33 = distinct !DILexicalBlock(scope: !21, file: !1, line: 4, column: 9)
!34 = !DILocation(line: 4, column: 11, scope: !33)
!35 = !DILocation(line: 4, column: 9, scope: !21)
!36 = !DILocation(line: 5, column: 13, scope: !33)
!37 = !DILocation(line: 5, column: 17, scope: !33)
!38 = !DILocation(line: 5, column: 15, scope: !33)
!39 = !DILocation(line: 5, column: 11, scope: !33)
!40 = !DILocation(line: 5, column: 9, scope: !33)
!41 = !DILocation(line: 6, column: 12, scope: !21)
!42 = !DILocation(line: 6, column: 5, scope: !21)
