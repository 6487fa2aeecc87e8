; ModuleID = 'driver/probes/create_by_choice.c'
source_filename = "driver/probes/create_by_choice.c"
target datalayout = "e-m:e-p270:32:32-p271:32:32-p272:64:64-i64:64-f80:128-n8:16:32:64-S128"
target triple = "x86_64-pc-linux-gnu"

; Function Attrs: noinline nounwind optnone uwtable
define dso_local i32 @main() #0 !dbg !12 {
  %1 = alloca i32, align 4
  %2 = alloca i64, align 8
  store i32 0, ptr %1, align 4
  call void @llvm.dbg.declare(metadata ptr %2, metadata !17, metadata !DIExpression()), !dbg !21
  %3 = call i64 @pg_in(i64 noundef 0), !dbg !22
  %4 = icmp ne i64 %3, 0, !dbg !22
  %5 = zext i1 %4 to i64, !dbg !22
  %6 = select i1 %4, ptr @one, ptr @other, !dbg !22
  %7 = call i32 @pthread_create(ptr noundef %2, ptr noundef null, ptr noundef %6, ptr noundef null) #4, !dbg !23
  %8 = load i64, ptr %2, align 8, !dbg !24
  %9 = call i32 @pthread_join(i64 noundef %8, ptr noundef null), !dbg !25
  ret i32 0, !dbg !26
}

; Function Attrs: nocallback nofree nosync nounwind speculatable willreturn memory(none)
declare void @llvm.dbg.declare(metadata, metadata, metadata) #1

; Function Attrs: nounwind
declare i32 @pthread_create(ptr noundef, ptr noundef, ptr noundef, ptr noundef) #2

declare i64 @pg_in(i64 noundef) #3

; Function Attrs: noinline nounwind optnone uwtable
define internal ptr @one(ptr noundef %0) #0 !dbg !27 {
  %2 = alloca ptr, align 8
  store ptr %0, ptr %2, align 8
  call void @llvm.dbg.declare(metadata ptr %2, metadata !30, metadata !DIExpression()), !dbg !31
  %3 = load ptr, ptr %2, align 8, !dbg !32
  ret ptr %3, !dbg !33
}

; Function Attrs: noinline nounwind optnone uwtable
define internal ptr @other(ptr noundef %0) #0 !dbg !34 {
  %2 = alloca ptr, align 8
  store ptr %0, ptr %2, align 8
  call void @llvm.dbg.declare(metadata ptr %2, metadata !35, metadata !DIExpression()), !dbg !36
  %3 = load ptr, ptr %2, align 8, !dbg !37
  ret ptr %3, !dbg !38
}

declare i32 @pthread_join(i64 noundef, ptr noundef) #3

attributes #0 = { noinline nounwind optnone uwtable "frame-pointer"="all" "min-legal-vector-width"="0" "no-trapping-math"="true" "stack-protector-buffer-size"="8" "target-cpu"="x86-64" "target-features"="+cx8,+fxsr,+mmx,+sse,+sse2,+x87" "tune-cpu"="generic" }
attributes #1 = { nocallback nofree nosync nounwind speculatable willreturn memory(none) }
attributes #2 = { nounwind "frame-pointer"="all" "no-trapping-math"="true" "stack-protector-buffer-size"="8" "target-cpu"="x86-64" "target-features"="+cx8,+fxsr,+mmx,+sse,+sse2,+x87" "tune-cpu"="generic" }
attributes #3 = { "frame-pointer"="all" "no-trapping-math"="true" "stack-protector-buffer-size"="8" "target-cpu"="x86-64" "target-features"="+cx8,+fxsr,+mmx,+sse,+sse2,+x87" "tune-cpu"="generic" }
attributes #4 = { nounwind }

!llvm.dbg.cu = !{!0}
!llvm.module.flags = !{!4, !5, !6, !7, !8, !9, !10}
!llvm.ident = !{!11}

!0 = distinct !DICompileUnit(language: DW_LANG_C11, file: !1, producer: "Debian clang version 16.0.6 (15~deb12u1)", isOptimized: false, runtimeVersion: 0, emissionKind: FullDebug, retainedTypes: !2, splitDebugInlining: false, nameTableKind: None)
!1 = !DIFile(filename: "driver/probes/create_by_choice.c", directory: ".", checksumkind: CSK_MD5, checksum: "c9eb1a112babfb36700fa4c39df00d0d")
!2 = !{!3}
!3 = !DIDerivedType(tag: DW_TAG_pointer_type, baseType: null, size: 64)
!4 = !{i32 7, !"Dwarf Version", i32 5}
!5 = !{i32 2, !"Debug Info Version", i32 3}
!6 = !{i32 1, !"wchar_size", i32 4}
!7 = !{i32 8, !"PIC Level", i32 2}
!8 = !{i32 7, !"PIE Level", i32 2}
!9 = !{i32 7, !"uwtable", i32 2}
!10 = !{i32 7, !"frame-pointer", i32 2}
!11 = !{!"Debian clang version 16.0.6 (15~deb12u1)"}
!12 = distinct !DISubprogram(name: "main", scope: !1, file: !1, line: 5, type: !13, scopeLine: 5, flags: DIFlagPrototyped, spFlags: DISPFlagDefinition, unit: !0, retainedNodes: !16)
!13 = !DISubroutineType(types: !14)
!14 = !{!15}
!15 = !DIBasicType(name: "int", size: 32, encoding: DW_ATE_signed)
!16 = !{}
!17 = !DILocalVariable(name: "thread", scope: !12, file: !1, line: 6, type: !18)
!18 = !DIDerivedType(tag: DW_TAG_typedef, name: "pthread_t", file: !19, line: 27, baseType: !20)
!19 = !DIFile(filename: "/usr/include/x86_64-linux-gnu/bits/pthreadtypes.h", directory: "", checksumkind: CSK_MD5, checksum: "735e3bf264ff9d8f5d95898b1692fbdb")
!20 = !DIBasicType(name: "unsigned long", size: 64, encoding: DW_ATE_unsigned)
!21 = !DILocation(line: 6, column: 15, scope: !12)
!22 = !DILocation(line: 7, column: 35, scope: !12)
!23 = !DILocation(line: 7, column: 5, scope: !12)
!24 = !DILocation(line: 8, column: 18, scope: !12)
!25 = !DILocation(line: 8, column: 5, scope: !12)
!26 = !DILocation(line: 9, column: 5, scope: !12)
!27 = distinct !DISubprogram(name: "one", scope: !1, file: !1, line: 3, type: !28, scopeLine: 3, flags: DIFlagPrototyped, spFlags: DISPFlagLocalToUnit | DISPFlagDefinition, unit: !0, retainedNodes: !16)
!28 = !DISubroutineType(types: !29)
!29 = !{!3, !3}
!30 = !DILocalVariable(name: "of", arg: 1, scope: !27, file: !1, line: 3, type: !3)
!31 = !DILocation(line: 3, column: 24, scope: !27)
!32 = !DILocation(line: 3, column: 37, scope: !27)
!33 = !DILocation(line: 3, column: 30, scope: !27)
!34 = distinct !DISubprogram(name: "other", scope: !1, file: !1, line: 4, type: !28, scopeLine: 4, flags: DIFlagPrototyped, spFlags: DISPFlagLocalToUnit | DISPFlagDefinition, unit: !0, retainedNodes: !16)
!35 = !DILocalVariable(name: "of", arg: 1, scope: !34, file: !1, line: 4, type: !3)
!36 = !DILocation(line: 4, column: 26, scope: !34)
!37 = !DILocation(line: 4, column: 39, scope: !34)
!38 = !DILocation(line: 4, column: 32, scope: !34)
