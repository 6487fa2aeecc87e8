; ModuleID = 'driver/probes/array_of_variable_length.c'
source_filename = "driver/probes/array_of_variable_length.c"
target datalayout = "e-m:e-p270:32:32-p271:32:32-p272:64:64-i64:64-f80:128-n8:16:32:64-S128"
target triple = "x86_64-pc-linux-gnu"

; Function Attrs: noinline nounwind optnone uwtable
define dso_local i32 @main() #0 !dbg !10 {
  %1 = alloca i32, align 4
  %2 = alloca i64, align 8
  %3 = alloca ptr, align 8
  %4 = alloca i64, align 8
  store i32 0, ptr %1, align 4
  call void @llvm.dbg.declare(metadata ptr %2, metadata !15, metadata !DIExpression()), !dbg !17
  %5 = call i64 @pg_in_len(), !dbg !18
  %6 = add nsw i64 %5, 2, !dbg !19
  store i64 %6, ptr %2, align 8, !dbg !17
  %7 = load i64, ptr %2, align 8, !dbg !20
  %8 = call ptr @llvm.stacksave(), !dbg !21
  store ptr %8, ptr %3, align 8, !dbg !21
  %9 = alloca i64, i64 %7, align 16, !dbg !21
  store i64 %7, ptr %4, align 8, !dbg !21
  call void @llvm.dbg.declare(metadata ptr %4, metadata !22, metadata !DIExpression()), !dbg !24
  call void @llvm.dbg.declare(metadata ptr %9, metadata !25, metadata !DIExpression()), !dbg !29
  %10 = getelementptr inbounds i64, ptr %9, i64 1, !dbg !30
  store i64 3, ptr %10, align 8, !dbg !31
  %11 = getelementptr inbounds i64, ptr %9, i64 1, !dbg !32
  %12 = load i64, ptr %11, align 8, !dbg !32
  call void @pg_out(i64 noundef %12), !dbg !33
  store i32 0, ptr %1, align 4, !dbg !34
  %13 = load ptr, ptr %3, align 8, !dbg !35
  call void @llvm.stackrestore(ptr %13), !dbg !35
  %14 = load i32, ptr %1, align 4, !dbg !35
  ret i32 %14, !dbg !35
}

; Function Attrs: nocallback nofree nosync nounwind speculatable willreturn memory(none)
declare void @llvm.dbg.declare(metadata, metadata, metadata) #1

declare i64 @pg_in_len() #2

; Function Attrs: nocallback nofree nosync nounwind willreturn
declare ptr @llvm.stacksave() #3

declare void @pg_out(i64 noundef) #2

; Function Attrs: nocallback nofree nosync nounwind willreturn
declare void @llvm.stackrestore(ptr) #3

attributes #0 = { noinline nounwind optnone uwtable "frame-pointer"="all" "min-legal-vector-width"="0" "no-trapping-math"="true" "stack-protector-buffer-size"="8" "target-cpu"="x86-64" "target-features"="+cx8,+fxsr,+mmx,+sse,+sse2,+x87" "tune-cpu"="generic" }
attributes #1 = { nocallback nofree nosync nounwind speculatable willreturn memory(none) }
attributes #2 = { "frame-pointer"="all" "no-trapping-math"="true" "stack-protector-buffer-size"="8" "target-cpu"="x86-64" "target-features"="+cx8,+fxsr,+mmx,+sse,+sse2,+x87" "tune-cpu"="generic" }
attributes #3 = { nocallback nofree nosync nounwind willreturn }

!llvm.dbg.cu = !{!0}
!llvm.module.flags = !{!2, !3, !4, !5, !6, !7, !8}
!llvm.ident = !{!9}

!0 = distinct !DICompileUnit(language: DW_LANG_C11, file: !1, producer: "Debian clang version 16.0.6 (15~deb12u1)", isOptimized: false, runtimeVersion: 0, emissionKind: FullDebug, splitDebugInlining: false, nameTableKind: None)
!1 = !DIFile(filename: "driver/probes/array_of_variable_length.c", directory: ".", checksumkind: CSK_MD5, checksum: "5a15773939538830a42e745f4c3fdc05")
!2 = !{i32 7, !"Dwarf Version", i32 5}
!3 = !{i32 2, !"Debug Info Version", i32 3}
!4 = !{i32 1, !"wchar_size", i32 4}
!5 = !{i32 8, !"PIC Level", i32 2}
!6 = !{i32 7, !"PIE Level", i32 2}
!7 = !{i32 7, !"uwtable", i32 2}
!8 = !{i32 7, !"frame-pointer", i32 2}
!9 = !{!"Debian clang version 16.0.6 (15~deb12u1)"}
!10 = distinct !DISubprogram(name: "main", scope: !1, file: !1, line: 3, type: !11, scopeLine: 3, flags: DIFlagPrototyped, spFlags: DISPFlagDefinition, unit: !0, retainedNodes: !14)
!11 = !DISubroutineType(types: !12)
!12 = !{!13}
!13 = !DIBasicType(name: "int", size: 32, encoding: DW_ATE_signed)
!14 = !{}
!15 = !DILocalVariable(name: "n", scope: !10, file: !1, line: 4, type: !16)
!16 = !DIBasicType(name: "long", size: 64, encoding: DW_ATE_signed)
!17 = !DILocation(line: 4, column: 6, scope: !10)
!18 = !DILocation(line: 4, column: 10, scope: !10)
!19 = !DILocation(line: 4, column: 22, scope: !10)
!20 = !DILocation(line: 5, column: 8, scope: !10)
!21 = !DILocation(line: 5, column: 1, scope: !10)
!22 = !DILocalVariable(name: "__vla_expr0", scope: !10, type: !23, flags: DIFlagArtificial)
!23 = !DIBasicType(name: "unsigned long", size: 64, encoding: DW_ATE_unsigned)
!24 = !DILocation(line: 0, scope: !10)
!25 = !DILocalVariable(name: "a", scope: !10, file: !1, line: 5, type: !26)
!26 = !DICompositeType(tag: DW_TAG_array_type, baseType: !16, elements: !27)
!27 = !{!28}
!28 = !DISubrange(count: !22)
!29 = !DILocation(line: 5, column: 6, scope: !10)
!30 = !DILocation(line: 6, column: 1, scope: !10)
!31 = !DILocation(line: 6, column: 6, scope: !10)
!32 = !DILocation(line: 7, column: 8, scope: !10)
!33 = !DILocation(line: 7, column: 1, scope: !10)
!34 = !DILocation(line: 8, column: 1, scope: !10)
!35 = !DILocation(line: 9, column: 1, scope: !10)
