; ModuleID = 'driver/probes/function_pointer_table.c'
source_filename = "driver/probes/function_pointer_table.c"
target datalayout = "e-m:e-p270:32:32-p271:32:32-p272:64:64-i64:64-f80:128-n8:16:32:64-S128"
target triple = "x86_64-pc-linux-gnu"

@t = internal global [2 x ptr] [ptr @one, ptr @two], align 16, !dbg !0

; Function Attrs: noinline nounwind optnone uwtable
define dso_local i32 @main() #0 !dbg !20 {
  %1 = alloca i32, align 4
  store i32 0, ptr %1, align 4
  %2 = load ptr, ptr getelementptr inbounds ([2 x ptr], ptr @t, i64 0, i64 1), align 8, !dbg !25
  %3 = call i64 %2(i64 noundef 3), !dbg !25
  call void @pg_out(i64 noundef %3), !dbg !26
  ret i32 0, !dbg !27
}

declare void @pg_out(i64 noundef) #1

; Function Attrs: noinline nounwind optnone uwtable
define internal i64 @one(i64 noundef %0) #0 !dbg !28 {
  %2 = alloca i64, align 8
  store i64 %0, ptr %2, align 8
  call void @llvm.dbg.declare(metadata ptr %2, metadata !29, metadata !DIExpression()), !dbg !30
  %3 = load i64, ptr %2, align 8, !dbg !31
  ret i64 %3, !dbg !32
}

; Function Attrs: noinline nounwind optnone uwtable
define internal i64 @two(i64 noundef %0) #0 !dbg !33 {
  %2 = alloca i64, align 8
  store i64 %0, ptr %2, align 8
  call void @llvm.dbg.declare(metadata ptr %2, metadata !34, metadata !DIExpression()), !dbg !35
  %3 = load i64, ptr %2, align 8, !dbg !36
  %4 = add nsw i64 %3, 1, !dbg !37
  ret i64 %4, !dbg !38
}

; Function Attrs: nocallback nofree nosync nounwind speculatable willreturn memory(none)
declare void @llvm.dbg.declare(metadata, metadata, metadata) #2

attributes #0 = { noinline nounwind optnone uwtable "frame-pointer"="all" "min-legal-vector-width"="0" "no-trapping-math"="true" "stack-protector-buffer-size"="8" "target-cpu"="x86-64" "target-features"="+cx8,+fxsr,+mmx,+sse,+sse2,+x87" "tune-cpu"="generic" }
attributes #1 = { "frame-pointer"="all" "no-trapping-math"="true" "stack-protector-buffer-size"="8" "target-cpu"="x86-64" "target-features"="+cx8,+fxsr,+mmx,+sse,+sse2,+x87" "tune-cpu"="generic" }
attributes #2 = { nocallback nofree nosync nounwind speculatable willreturn memory(none) }

!llvm.dbg.cu = !{!2}
!llvm.module.flags = !{!12, !13, !14, !15, !16, !17, !18}
!llvm.ident = !{!19}

!0 = !DIGlobalVariableExpression(var: !1, expr: !DIExpression())
!1 = distinct !DIGlobalVariable(name: "t", scope: !2, file: !3, line: 2, type: !5, isLocal: true, isDefinition: true)
!2 = distinct !DICompileUnit(language: DW_LANG_C11, file: !3, producer: "Debian clang version 16.0.6 (15~deb12u1)", isOptimized: false, runtimeVersion: 0, emissionKind: FullDebug, globals: !4, splitDebugInlining: false, nameTableKind: None)
!3 = !DIFile(filename: "driver/probes/function_pointer_table.c", directory: ".", checksumkind: CSK_MD5, checksum: "5b30c406b13e90c4dcf8c020c4da9c76")
!4 = !{!0}
!5 = !DICompositeType(tag: DW_TAG_array_type, baseType: !6, size: 128, elements: !10)
!6 = !DIDerivedType(tag: DW_TAG_pointer_type, baseType: !7, size: 64)
!7 = !DISubroutineType(types: !8)
!8 = !{!9, !9}
!9 = !DIBasicType(name: "long", size: 64, encoding: DW_ATE_signed)
!10 = !{!11}
!11 = !DISubrange(count: 2)
!12 = !{i32 7, !"Dwarf Version", i32 5}
!13 = !{i32 2, !"Debug Info Version", i32 3}
!14 = !{i32 1, !"wchar_size", i32 4}
!15 = !{i32 8, !"PIC Level", i32 2}
!16 = !{i32 7, !"PIE Level", i32 2}
!17 = !{i32 7, !"uwtable", i32 2}
!18 = !{i32 7, !"frame-pointer", i32 2}
!19 = !{!"Debian clang version 16.0.6 (15~deb12u1)"}
!20 = distinct !DISubprogram(name: "main", scope: !3, file: !3, line: 3, type: !21, scopeLine: 3, flags: DIFlagPrototyped, spFlags: DISPFlagDefinition, unit: !2, retainedNodes: !24)
!21 = !DISubroutineType(types: !22)
!22 = !{!23}
!23 = !DIBasicType(name: "int", size: 32, encoding: DW_ATE_signed)
!24 = !{}
!25 = !DILocation(line: 4, column: 8, scope: !20)
!26 = !DILocation(line: 4, column: 1, scope: !20)
!27 = !DILocation(line: 5, column: 1, scope: !20)
!28 = distinct !DISubprogram(name: "one", scope: !3, file: !3, line: 2, type: !7, scopeLine: 2, flags: DIFlagPrototyped, spFlags: DISPFlagLocalToUnit | DISPFlagDefinition, unit: !2, retainedNodes: !24)
!29 = !DILocalVariable(name: "x", arg: 1, scope: !28, file: !3, line: 2, type: !9)
!30 = !DILocation(line: 2, column: 22, scope: !28)
!31 = !DILocation(line: 2, column: 34, scope: !28)
!32 = !DILocation(line: 2, column: 27, scope: !28)
!33 = distinct !DISubprogram(name: "two", scope: !3, file: !3, line: 2, type: !7, scopeLine: 2, flags: DIFlagPrototyped, spFlags: DISPFlagLocalToUnit | DISPFlagDefinition, unit: !2, retainedNodes: !24)
!34 = !DILocalVariable(name: "x", arg: 1, scope: !33, file: !3, line: 2, type: !9)
!35 = !DILocation(line: 2, column: 60, scope: !33)
!36 = !DILocation(line: 2, column: 72, scope: !33)
!37 = !DILocation(line: 2, column: 74, scope: !33)
!38 = !DILocation(line: 2, column: 65, scope: !33)
