; ModuleID = 'driver/probes/wide_product.c'
source_filename = "driver/probes/wide_product.c"
target datalayout = "e-m:e-p270:32:32-p271:32:32-p272:64:64-i64:64-f80:128-n8:16:32:64-S128"
target triple = "x86_64-pc-linux-gnu"

; Function Attrs: noinline nounwind optnone uwtable
define dso_local i32 @main() #0 !dbg !13 {
  %1 = alloca i32, align 4
  %2 = alloca i128, align 16
  store i32 0, ptr %1, align 4
  call void @llvm.dbg.declare(metadata ptr %2, metadata !18, metadata !DIExpression()), !dbg !19
  %3 = call i64 @pg_in(i64 noundef 0), !dbg !20
  %4 = sext i64 %3 to i128, !dbg !21
  %5 = mul i128 %4, 3, !dbg !22
  store i128 %5, ptr %2, align 16, !dbg !19
  %6 = load i128, ptr %2, align 16, !dbg !23
  %7 = lshr i128 %6, 64, !dbg !24
  %8 = trunc i128 %7 to i64, !dbg !25
  call void @pg_out(i64 noundef %8), !dbg !26
  ret i32 0, !dbg !27
}

; Function Attrs: nocallback nofree nosync nounwind speculatable willreturn memory(none)
declare void @llvm.dbg.declare(metadata, metadata, metadata) #1

declare i64 @pg_in(i64 noundef) #2

declare void @pg_out(i64 noundef) #2

attributes #0 = { noinline nounwind optnone uwtable "frame-pointer"="all" "min-legal-vector-width"="0" "no-trapping-math"="true" "stack-protector-buffer-size"="8" "target-cpu"="x86-64" "target-features"="+cx8,+fxsr,+mmx,+sse,+sse2,+x87" "tune-cpu"="generic" }
attributes #1 = { nocallback nofree nosync nounwind speculatable willreturn memory(none) }
attributes #2 = { "frame-pointer"="all" "no-trapping-math"="true" "stack-protector-buffer-size"="8" "target-cpu"="x86-64" "target-features"="+cx8,+fxsr,+mmx,+sse,+sse2,+x87" "tune-cpu"="generic" }

!llvm.dbg.cu = !{!0}
!llvm.module.flags = !{!5, !6, !7, !8, !9, !10, !11}
!llvm.ident = !{!12}

!0 = distinct !DICompileUnit(language: DW_LANG_C11, file: !1, producer: "Debian clang version 16.0.6 (15~deb12u1)", isOptimized: false, runtimeVersion: 0, emissionKind: FullDebug, retainedTypes: !2, splitDebugInlining: false, nameTableKind: None)
!1 = !DIFile(filename: "driver/probes/wide_product.c", directory: ".", checksumkind: CSK_MD5, checksum: "f7a58779f6ea8a0e888df575f7fc328c")
!2 = !{!3, !4}
!3 = !DIBasicType(name: "unsigned __int128", size: 128, encoding: DW_ATE_unsigned)
!4 = !DIBasicType(name: "long", size: 64, encoding: DW_ATE_signed)
!5 = !{i32 7, !"Dwarf Version", i32 5}
!6 = !{i32 2, !"Debug Info Version", i32 3}
!7 = !{i32 1, !"wchar_size", i32 4}
!8 = !{i32 8, !"PIC Level", i32 2}
!9 = !{i32 7, !"PIE Level", i32 2}
!10 = !{i32 7, !"uwtable", i32 2}
!11 = !{i32 7, !"frame-pointer", i32 2}
!12 = !{!"Debian clang version 16.0.6 (15~deb12u1)"}
!13 = distinct !DISubprogram(name: "main", scope: !1, file: !1, line: 3, type: !14, scopeLine: 3, flags: DIFlagPrototyped, spFlags: DISPFlagDefinition, unit: !0, retainedNodes: !17)
!14 = !DISubroutineType(types: !15)
!15 = !{!16}
!16 = !DIBasicType(name: "int", size: 32, encoding: DW_ATE_signed)
!17 = !{}
!18 = !DILocalVariable(name: "x", scope: !13, file: !1, line: 4, type: !3)
!19 = !DILocation(line: 4, column: 19, scope: !13)
!20 = !DILocation(line: 4, column: 42, scope: !13)
!21 = !DILocation(line: 4, column: 23, scope: !13)
!22 = !DILocation(line: 4, column: 51, scope: !13)
!23 = !DILocation(line: 5, column: 15, scope: !13)
!24 = !DILocation(line: 5, column: 17, scope: !13)
!25 = !DILocation(line: 5, column: 8, scope: !13)
!26 = !DILocation(line: 5, column: 1, scope: !13)
!27 = !DILocation(line: 6, column: 1, scope: !13)
