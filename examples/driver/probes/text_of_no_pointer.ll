; ModuleID = 'driver/probes/text_of_no_pointer.c'
source_filename = "driver/probes/text_of_no_pointer.c"
target datalayout = "e-m:e-p270:32:32-p271:32:32-p272:64:64-i64:64-f80:128-n8:16:32:64-S128"
target triple = "x86_64-pc-linux-gnu"

@.str = private unnamed_addr constant [4 x i8] c"abc\00", align 1, !dbg !0
@.str.1 = private unnamed_addr constant [15 x i8] c"%d numbers\0A%s\0A\00", align 1, !dbg !7

; Function Attrs: noinline nounwind optnone uwtable
define dso_local i32 @main() #0 !dbg !26 {
  %1 = alloca i32, align 4
  store i32 0, ptr %1, align 4
  call void @told(ptr noundef @.str), !dbg !30
  %2 = call i64 @pg_in(i64 noundef 0), !dbg !31
  %3 = add nsw i64 %2, 8, !dbg !32
  %4 = inttoptr i64 %3 to ptr, !dbg !33
  call void @told(ptr noundef %4), !dbg !34
  ret i32 0, !dbg !35
}

; Function Attrs: noinline nounwind optnone uwtable
define internal void @told(ptr noundef %0) #0 !dbg !36 {
  %2 = alloca ptr, align 8
  store ptr %0, ptr %2, align 8
  call void @llvm.dbg.declare(metadata ptr %2, metadata !39, metadata !DIExpression()), !dbg !40
  %3 = call i64 @pg_in_len(), !dbg !41
  %4 = trunc i64 %3 to i32, !dbg !42
  %5 = load ptr, ptr %2, align 8, !dbg !43
  %6 = call i32 (ptr, ...) @printf(ptr noundef @.str.1, i32 noundef %4, ptr noundef %5), !dbg !44
  ret void, !dbg !45
}

declare i64 @pg_in(i64 noundef) #1

; Function Attrs: nocallback nofree nosync nounwind speculatable willreturn memory(none)
declare void @llvm.dbg.declare(metadata, metadata, metadata) #2

declare i32 @printf(ptr noundef, ...) #1

declare i64 @pg_in_len() #1

attributes #0 = { noinline nounwind optnone uwtable "frame-pointer"="all" "min-legal-vector-width"="0" "no-trapping-math"="true" "stack-protector-buffer-size"="8" "target-cpu"="x86-64" "target-features"="+cx8,+fxsr,+mmx,+sse,+sse2,+x87" "tune-cpu"="generic" }
attributes #1 = { "frame-pointer"="all" "no-trapping-math"="true" "stack-protector-buffer-size"="8" "target-cpu"="x86-64" "target-features"="+cx8,+fxsr,+mmx,+sse,+sse2,+x87" "tune-cpu"="generic" }
attributes #2 = { nocallback nofree nosync nounwind speculatable willreturn memory(none) }

!llvm.dbg.cu = !{!12}
!llvm.module.flags = !{!18, !19, !20, !21, !22, !23, !24}
!llvm.ident = !{!25}

!0 = !DIGlobalVariableExpression(var: !1, expr: !DIExpression())
!1 = distinct !DIGlobalVariable(scope: null, file: !2, line: 7, type: !3, isLocal: true, isDefinition: true)
!2 = !DIFile(filename: "driver/probes/text_of_no_pointer.c", directory: ".", checksumkind: CSK_MD5, checksum: "f2073599afe0f9fa9636c2b37da9175d")
!3 = !DICompositeType(tag: DW_TAG_array_type, baseType: !4, size: 32, elements: !5)
!4 = !DIBasicType(name: "char", size: 8, encoding: DW_ATE_signed_char)
!5 = !{!6}
!6 = !DISubrange(count: 4)
!7 = !DIGlobalVariableExpression(var: !8, expr: !DIExpression())
!8 = distinct !DIGlobalVariable(scope: null, file: !2, line: 4, type: !9, isLocal: true, isDefinition: true)
!9 = !DICompositeType(tag: DW_TAG_array_type, baseType: !4, size: 120, elements: !10)
!10 = !{!11}
!11 = !DISubrange(count: 15)
!12 = distinct !DICompileUnit(language: DW_LANG_C11, file: !2, producer: "Debian clang version 16.0.6 (15~deb12u1)", isOptimized: false, runtimeVersion: 0, emissionKind: FullDebug, retainedTypes: !13, globals: !17, splitDebugInlining: false, nameTableKind: None)
!13 = !{!14, !16}
!14 = !DIDerivedType(tag: DW_TAG_pointer_type, baseType: !15, size: 64)
!15 = !DIDerivedType(tag: DW_TAG_const_type, baseType: !4)
!16 = !DIBasicType(name: "int", size: 32, encoding: DW_ATE_signed)
!17 = !{!0, !7}
!18 = !{i32 7, !"Dwarf Version", i32 5}
!19 = !{i32 2, !"Debug Info Version", i32 3}
!20 = !{i32 1, !"wchar_size", i32 4}
!21 = !{i32 8, !"PIC Level", i32 2}
!22 = !{i32 7, !"PIE Level", i32 2}
!23 = !{i32 7, !"uwtable", i32 2}
!24 = !{i32 7, !"frame-pointer", i32 2}
!25 = !{!"Debian clang version 16.0.6 (15~deb12u1)"}
!26 = distinct !DISubprogram(name: "main", scope: !2, file: !2, line: 6, type: !27, scopeLine: 6, flags: DIFlagPrototyped, spFlags: DISPFlagDefinition, unit: !12, retainedNodes: !29)
!27 = !DISubroutineType(types: !28)
!28 = !{!16}
!29 = !{}
!30 = !DILocation(line: 7, column: 5, scope: !26)
!31 = !DILocation(line: 8, column: 25, scope: !26)
!32 = !DILocation(line: 8, column: 34, scope: !26)
!33 = !DILocation(line: 8, column: 10, scope: !26)
!34 = !DILocation(line: 8, column: 5, scope: !26)
!35 = !DILocation(line: 9, column: 5, scope: !26)
!36 = distinct !DISubprogram(name: "told", scope: !2, file: !2, line: 3, type: !37, scopeLine: 3, flags: DIFlagPrototyped, spFlags: DISPFlagLocalToUnit | DISPFlagDefinition, unit: !12, retainedNodes: !29)
!37 = !DISubroutineType(types: !38)
!38 = !{null, !14}
!39 = !DILocalVariable(name: "s", arg: 1, scope: !36, file: !2, line: 3, type: !14)
!40 = !DILocation(line: 3, column: 30, scope: !36)
!41 = !DILocation(line: 4, column: 37, scope: !36)
!42 = !DILocation(line: 4, column: 32, scope: !36)
!43 = !DILocation(line: 4, column: 50, scope: !36)
!44 = !DILocation(line: 4, column: 5, scope: !36)
!45 = !DILocation(line: 5, column: 1, scope: !36)
