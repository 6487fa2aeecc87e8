; ModuleID = 'driver/probes/large_variable.c'
source_filename = "driver/probes/large_variable.c"
target datalayout = "e-m:e-p270:32:32-p271:32:32-p272:64:64-i64:64-f80:128-n8:16:32:64-S128"
target triple = "x86_64-pc-linux-gnu"

@large = internal global [4194304 x i8] zeroinitializer, align 16, !dbg !0

; Function Attrs: noinline nounwind optnone uwtable
define dso_local i32 @main() #0 !dbg !17 {
  %1 = alloca i32, align 4
  store i32 0, ptr %1, align 4
  %2 = call i64 @pg_in(i64 noundef 1), !dbg !22
  %3 = getelementptr inbounds [4194304 x i8], ptr @large, i64 0, i64 %2, !dbg !23
  store i8 3, ptr %3, align 1, !dbg !24
  %4 = load i8, ptr getelementptr inbounds ([4194304 x i8], ptr @large, i64 0, i64 5), align 1, !dbg !25
  %5 = sext i8 %4 to i64, !dbg !25
  call void @pg_out(i64 noundef %5), !dbg !26
  ret i32 0, !dbg !27
}

declare i64 @pg_in(i64 noundef) #1

declare void @pg_out(i64 noundef) #1

attributes #0 = { noinline nounwind optnone uwtable "frame-pointer"="all" "min-legal-vector-width"="0" "no-trapping-math"="true" "stack-protector-buffer-size"="8" "target-cpu"="x86-64" "target-features"="+cx8,+fxsr,+mmx,+sse,+sse2,+x87" "tune-cpu"="generic" }
attributes #1 = { "frame-pointer"="all" "no-trapping-math"="true" "stack-protector-buffer-size"="8" "target-cpu"="x86-64" "target-features"="+cx8,+fxsr,+mmx,+sse,+sse2,+x87" "tune-cpu"="generic" }

!llvm.dbg.cu = !{!2}
!llvm.module.flags = !{!9, !10, !11, !12, !13, !14, !15}
!llvm.ident = !{!16}

!0 = !DIGlobalVariableExpression(var: !1, expr: !DIExpression())
!1 = distinct !DIGlobalVariable(name: "large", scope: !2, file: !3, line: 3, type: !5, isLocal: true, isDefinition: true)
!2 = distinct !DICompileUnit(language: DW_LANG_C11, file: !3, producer: "Debian clang version 16.0.6 (15~deb12u1)", isOptimized: false, runtimeVersion: 0, emissionKind: FullDebug, globals: !4, splitDebugInlining: false, nameTableKind: None)
!3 = !DIFile(filename: "driver/probes/large_variable.c", directory: ".", checksumkind: CSK_MD5, checksum: "fd2a57e910d85baec7a9b69a75bde4a1")
!4 = !{!0}
!5 = !DICompositeType(tag: DW_TAG_array_type, baseType: !6, size: 33554432, elements: !7)
!6 = !DIBasicType(name: "char", size: 8, encoding: DW_ATE_signed_char)
!7 = !{!8}
!8 = !DISubrange(count: 4194304)
!9 = !{i32 7, !"Dwarf Version", i32 5}
!10 = !{i32 2, !"Debug Info Version", i32 3}
!11 = !{i32 1, !"wchar_size", i32 4}
!12 = !{i32 8, !"PIC Level", i32 2}
!13 = !{i32 7, !"PIE Level", i32 2}
!14 = !{i32 7, !"uwtable", i32 2}
!15 = !{i32 7, !"frame-pointer", i32 2}
!16 = !{!"Debian clang version 16.0.6 (15~deb12u1)"}
!17 = distinct !DISubprogram(name: "main", scope: !3, file: !3, line: 4, type: !18, scopeLine: 4, flags: DIFlagPrototyped, spFlags: DISPFlagDefinition, unit: !2, retainedNodes: !21)
!18 = !DISubroutineType(types: !19)
!19 = !{!20}
!20 = !DIBasicType(name: "int", size: 32, encoding: DW_ATE_signed)
!21 = !{}
!22 = !DILocation(line: 5, column: 11, scope: !17)
!23 = !DILocation(line: 5, column: 5, scope: !17)
!24 = !DILocation(line: 5, column: 21, scope: !17)
!25 = !DILocation(line: 6, column: 12, scope: !17)
!26 = !DILocation(line: 6, column: 5, scope: !17)
!27 = !DILocation(line: 7, column: 5, scope: !17)
