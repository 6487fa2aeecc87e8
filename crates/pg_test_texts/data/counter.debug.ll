; ModuleID = 'counter.c'
source_filename = "counter.c"
target datalayout = "e-m:e-p270:32:32-p271:32:32-p272:64:64-i64:64-f80:128-n8:16:32:64-S128"
target triple = "x86_64-pc-linux-gnu"

%union.pthread_mutex_t = type { %struct.__pthread_mutex_s }
%struct.__pthread_mutex_s = type { i32, i32, i32, i32, i32, i16, i16, %struct.__pthread_internal_list }
%struct.__pthread_internal_list = type { ptr, ptr }

@sum = internal global i64 0, align 8, !dbg !0
@lock = internal global %union.pthread_mutex_t zeroinitializer, align 8, !dbg !9

; Function Attrs: noinline nounwind optnone uwtable
define dso_local i32 @main() #0 !dbg !51 {
  %1 = alloca i32, align 4
  %2 = alloca [2 x i64], align 16
  %3 = alloca [2 x i64], align 16
  %4 = alloca i32, align 4
  %5 = alloca i32, align 4
  store i32 0, ptr %1, align 4
  call void @llvm.dbg.declare(metadata ptr %2, metadata !55, metadata !DIExpression()), !dbg !61
  call void @llvm.dbg.declare(metadata ptr %3, metadata !62, metadata !DIExpression()), !dbg !64
  call void @llvm.dbg.declare(metadata ptr %4, metadata !65, metadata !DIExpression()), !dbg !67
  store i32 0, ptr %4, align 4, !dbg !67
  br label %6, !dbg !68

6:                                                ; preds = %22, %0
  %7 = load i32, ptr %4, align 4, !dbg !69
  %8 = icmp slt i32 %7, 2, !dbg !71
  br i1 %8, label %9, label %25, !dbg !72

9:                                                ; preds = %6
  %10 = load i32, ptr %4, align 4, !dbg !73
  %11 = sext i32 %10 to i64, !dbg !73
  %12 = load i32, ptr %4, align 4, !dbg !75
  %13 = sext i32 %12 to i64, !dbg !76
  %14 = getelementptr inbounds [2 x i64], ptr %3, i64 0, i64 %13, !dbg !76
  store i64 %11, ptr %14, align 8, !dbg !77
  %15 = load i32, ptr %4, align 4, !dbg !78
  %16 = sext i32 %15 to i64, !dbg !79
  %17 = getelementptr inbounds [2 x i64], ptr %2, i64 0, i64 %16, !dbg !79
  %18 = load i32, ptr %4, align 4, !dbg !80
  %19 = sext i32 %18 to i64, !dbg !81
  %20 = getelementptr inbounds [2 x i64], ptr %3, i64 0, i64 %19, !dbg !81
  %21 = call i32 @pthread_create(ptr noundef %17, ptr noundef null, ptr noundef @worker, ptr noundef %20) #4, !dbg !82
  br label %22, !dbg !83

22:                                               ; preds = %9
  %23 = load i32, ptr %4, align 4, !dbg !84
  %24 = add nsw i32 %23, 1, !dbg !84
  store i32 %24, ptr %4, align 4, !dbg !84
  br label %6, !dbg !85, !llvm.loop !86

25:                                               ; preds = %6
  call void @llvm.dbg.declare(metadata ptr %5, metadata !89, metadata !DIExpression()), !dbg !91
  store i32 0, ptr %5, align 4, !dbg !91
  br label %26, !dbg !92

26:                                               ; preds = %35, %25
  %27 = load i32, ptr %5, align 4, !dbg !93
  %28 = icmp slt i32 %27, 2, !dbg !95
  br i1 %28, label %29, label %38, !dbg !96

29:                                               ; preds = %26
  %30 = load i32, ptr %5, align 4, !dbg !97
  %31 = sext i32 %30 to i64, !dbg !98
  %32 = getelementptr inbounds [2 x i64], ptr %2, i64 0, i64 %31, !dbg !98
  %33 = load i64, ptr %32, align 8, !dbg !98
  %34 = call i32 @pthread_join(i64 noundef %33, ptr noundef null), !dbg !99
  br label %35, !dbg !99

35:                                               ; preds = %29
  %36 = load i32, ptr %5, align 4, !dbg !100
  %37 = add nsw i32 %36, 1, !dbg !100
  store i32 %37, ptr %5, align 4, !dbg !100
  br label %26, !dbg !101, !llvm.loop !102

38:                                               ; preds = %26
  %39 = load i64, ptr @sum, align 8, !dbg !104
  call void @pg_out(i64 noundef %39), !dbg !105
  ret i32 0, !dbg !106
}

; Function Attrs: nocallback nofree nosync nounwind speculatable willreturn memory(none)
declare void @llvm.dbg.declare(metadata, metadata, metadata) #1

; Function Attrs: nounwind
declare i32 @pthread_create(ptr noundef, ptr noundef, ptr noundef, ptr noundef) #2

; Function Attrs: noinline nounwind optnone uwtable
define internal ptr @worker(ptr noundef %0) #0 !dbg !107 {
  %2 = alloca ptr, align 8
  %3 = alloca i64, align 8
  store ptr %0, ptr %2, align 8
  call void @llvm.dbg.declare(metadata ptr %2, metadata !110, metadata !DIExpression()), !dbg !111
  call void @llvm.dbg.declare(metadata ptr %3, metadata !112, metadata !DIExpression()), !dbg !114
  %4 = load ptr, ptr %2, align 8, !dbg !115
  %5 = load i64, ptr %4, align 8, !dbg !116
  store i64 %5, ptr %3, align 8, !dbg !114
  br label %6, !dbg !117

6:                                                ; preds = %13, %1
  %7 = load i64, ptr %3, align 8, !dbg !118
  %8 = call i64 @pg_in_len(), !dbg !120
  %9 = icmp slt i64 %7, %8, !dbg !121
  br i1 %9, label %10, label %16, !dbg !122

10:                                               ; preds = %6
  %11 = load i64, ptr %3, align 8, !dbg !123
  %12 = call i64 @pg_in(i64 noundef %11), !dbg !124
  call void @add(i64 noundef %12), !dbg !125
  br label %13, !dbg !125

13:                                               ; preds = %10
  %14 = load i64, ptr %3, align 8, !dbg !126
  %15 = add nsw i64 %14, 2, !dbg !126
  store i64 %15, ptr %3, align 8, !dbg !126
  br label %6, !dbg !127, !llvm.loop !128

16:                                               ; preds = %6
  ret ptr null, !dbg !130
}

declare i32 @pthread_join(i64 noundef, ptr noundef) #3

declare void @pg_out(i64 noundef) #3

declare i64 @pg_in_len() #3

; Function Attrs: noinline nounwind optnone uwtable
define internal void @add(i64 noundef %0) #0 !dbg !131 {
  %2 = alloca i64, align 8
  store i64 %0, ptr %2, align 8
  call void @llvm.dbg.declare(metadata ptr %2, metadata !134, metadata !DIExpression()), !dbg !135
  %3 = call i32 @pthread_mutex_lock(ptr noundef @lock) #4, !dbg !136
  %4 = load i64, ptr %2, align 8, !dbg !137
  %5 = load i64, ptr @sum, align 8, !dbg !138
  %6 = add nsw i64 %5, %4, !dbg !138
  store i64 %6, ptr @sum, align 8, !dbg !138
  %7 = call i32 @pthread_mutex_unlock(ptr noundef @lock) #4, !dbg !139
  ret void, !dbg !140
}

declare i64 @pg_in(i64 noundef) #3

; Function Attrs: nounwind
declare i32 @pthread_mutex_lock(ptr noundef) #2

; Function Attrs: nounwind
declare i32 @pthread_mutex_unlock(ptr noundef) #2

attributes #0 = { noinline nounwind optnone uwtable "frame-pointer"="all" "min-legal-vector-width"="0" "no-trapping-math"="true" "stack-protector-buffer-size"="8" "target-cpu"="x86-64" "target-features"="+cx8,+fxsr,+mmx,+sse,+sse2,+x87" "tune-cpu"="generic" }
attributes #1 = { nocallback nofree nosync nounwind speculatable willreturn memory(none) }
attributes #2 = { nounwind "frame-pointer"="all" "no-trapping-math"="true" "stack-protector-buffer-size"="8" "target-cpu"="x86-64" "target-features"="+cx8,+fxsr,+mmx,+sse,+sse2,+x87" "tune-cpu"="generic" }
attributes #3 = { "frame-pointer"="all" "no-trapping-math"="true" "stack-protector-buffer-size"="8" "target-cpu"="x86-64" "target-features"="+cx8,+fxsr,+mmx,+sse,+sse2,+x87" "tune-cpu"="generic" }
attributes #4 = { nounwind }

!llvm.dbg.cu = !{!2}
!llvm.module.flags = !{!43, !44, !45, !46, !47, !48, !49}
!llvm.ident = !{!50}

!0 = !DIGlobalVariableExpression(var: !1, expr: !DIExpression())
!1 = distinct !DIGlobalVariable(name: "sum", scope: !2, file: !3, line: 9, type: !6, isLocal: true, isDefinition: true)
!2 = distinct !DICompileUnit(language: DW_LANG_C11, file: !3, producer: "Debian clang version 16.0.6 (15~deb12u1)", isOptimized: false, runtimeVersion: 0, emissionKind: FullDebug, retainedTypes: !4, globals: !8, splitDebugInlining: false, nameTableKind: None)
!3 = !DIFile(filename: "counter.c", directory: ".", checksumkind: CSK_MD5, checksum: "9f6ef04aeb0d3185bb73dfb92fd7e0f4")
!4 = !{!5, !7}
!5 = !DIDerivedType(tag: DW_TAG_pointer_type, baseType: !6, size: 64)
!6 = !DIBasicType(name: "long", size: 64, encoding: DW_ATE_signed)
!7 = !DIDerivedType(tag: DW_TAG_pointer_type, baseType: null, size: 64)
!8 = !{!0, !9}
!9 = !DIGlobalVariableExpression(var: !10, expr: !DIExpression())
!10 = distinct !DIGlobalVariable(name: "lock", scope: !2, file: !3, line: 8, type: !11, isLocal: true, isDefinition: true)
!11 = !DIDerivedType(tag: DW_TAG_typedef, name: "pthread_mutex_t", file: !12, line: 72, baseType: !13)
!12 = !DIFile(filename: "/usr/include/x86_64-linux-gnu/bits/pthreadtypes.h", directory: "", checksumkind: CSK_MD5, checksum: "735e3bf264ff9d8f5d95898b1692fbdb")
!13 = distinct !DICompositeType(tag: DW_TAG_union_type, file: !12, line: 67, size: 320, elements: !14)
!14 = !{!15, !37, !42}
!15 = !DIDerivedType(tag: DW_TAG_member, name: "__data", scope: !13, file: !12, line: 69, baseType: !16, size: 320)
!16 = distinct !DICompositeType(tag: DW_TAG_structure_type, name: "__pthread_mutex_s", file: !17, line: 22, size: 320, elements: !18)
!17 = !DIFile(filename: "/usr/include/x86_64-linux-gnu/bits/struct_mutex.h", directory: "", checksumkind: CSK_MD5, checksum: "584baedd80e6041b81caae7f496091c0")
!18 = !{!19, !21, !23, !24, !25, !26, !28, !29}
!19 = !DIDerivedType(tag: DW_TAG_member, name: "__lock", scope: !16, file: !17, line: 24, baseType: !20, size: 32)
!20 = !DIBasicType(name: "int", size: 32, encoding: DW_ATE_signed)
!21 = !DIDerivedType(tag: DW_TAG_member, name: "__count", scope: !16, file: !17, line: 25, baseType: !22, size: 32, offset: 32)
!22 = !DIBasicType(name: "unsigned int", size: 32, encoding: DW_ATE_unsigned)
!23 = !DIDerivedType(tag: DW_TAG_member, name: "__owner", scope: !16, file: !17, line: 26, baseType: !20, size: 32, offset: 64)
!24 = !DIDerivedType(tag: DW_TAG_member, name: "__nusers", scope: !16, file: !17, line: 28, baseType: !22, size: 32, offset: 96)
!25 = !DIDerivedType(tag: DW_TAG_member, name: "__kind", scope: !16, file: !17, line: 32, baseType: !20, size: 32, offset: 128)
!26 = !DIDerivedType(tag: DW_TAG_member, name: "__spins", scope: !16, file: !17, line: 34, baseType: !27, size: 16, offset: 160)
!27 = !DIBasicType(name: "short", size: 16, encoding: DW_ATE_signed)
!28 = !DIDerivedType(tag: DW_TAG_member, name: "__elision", scope: !16, file: !17, line: 35, baseType: !27, size: 16, offset: 176)
!29 = !DIDerivedType(tag: DW_TAG_member, name: "__list", scope: !16, file: !17, line: 36, baseType: !30, size: 128, offset: 192)
!30 = !DIDerivedType(tag: DW_TAG_typedef, name: "__pthread_list_t", file: !31, line: 55, baseType: !32)
!31 = !DIFile(filename: "/usr/include/x86_64-linux-gnu/bits/thread-shared-types.h", directory: "", checksumkind: CSK_MD5, checksum: "04c81e86d34dad9c99ad006d32e47a0d")
!32 = distinct !DICompositeType(tag: DW_TAG_structure_type, name: "__pthread_internal_list", file: !31, line: 51, size: 128, elements: !33)
!33 = !{!34, !36}
!34 = !DIDerivedType(tag: DW_TAG_member, name: "__prev", scope: !32, file: !31, line: 53, baseType: !35, size: 64)
!35 = !DIDerivedType(tag: DW_TAG_pointer_type, baseType: !32, size: 64)
!36 = !DIDerivedType(tag: DW_TAG_member, name: "__next", scope: !32, file: !31, line: 54, baseType: !35, size: 64, offset: 64)
!37 = !DIDerivedType(tag: DW_TAG_member, name: "__size", scope: !13, file: !12, line: 70, baseType: !38, size: 320)
!38 = !DICompositeType(tag: DW_TAG_array_type, baseType: !39, size: 320, elements: !40)
!39 = !DIBasicType(name: "char", size: 8, encoding: DW_ATE_signed_char)
!40 = !{!41}
!41 = !DISubrange(count: 40)
!42 = !DIDerivedType(tag: DW_TAG_member, name: "__align", scope: !13, file: !12, line: 71, baseType: !6, size: 64)
!43 = !{i32 7, !"Dwarf Version", i32 5}
!44 = !{i32 2, !"Debug Info Version", i32 3}
!45 = !{i32 1, !"wchar_size", i32 4}
!46 = !{i32 8, !"PIC Level", i32 2}
!47 = !{i32 7, !"PIE Level", i32 2}
!48 = !{i32 7, !"uwtable", i32 2}
!49 = !{i32 7, !"frame-pointer", i32 2}
!50 = !{!"Debian clang version 16.0.6 (15~deb12u1)"}
!51 = distinct !DISubprogram(name: "main", scope: !3, file: !3, line: 23, type: !52, scopeLine: 23, flags: DIFlagPrototyped, spFlags: DISPFlagDefinition, unit: !2, retainedNodes: !54)
!52 = !DISubroutineType(types: !53)
!53 = !{!20}
!54 = !{}
!55 = !DILocalVariable(name: "threads", scope: !51, file: !3, line: 24, type: !56)
!56 = !DICompositeType(tag: DW_TAG_array_type, baseType: !57, size: 128, elements: !59)
!57 = !DIDerivedType(tag: DW_TAG_typedef, name: "pthread_t", file: !12, line: 27, baseType: !58)
!58 = !DIBasicType(name: "unsigned long", size: 64, encoding: DW_ATE_unsigned)
!59 = !{!60}
!60 = !DISubrange(count: 2)
!61 = !DILocation(line: 24, column: 15, scope: !51)
!62 = !DILocalVariable(name: "firsts", scope: !51, file: !3, line: 25, type: !63)
!63 = !DICompositeType(tag: DW_TAG_array_type, baseType: !6, size: 128, elements: !59)
!64 = !DILocation(line: 25, column: 10, scope: !51)
!65 = !DILocalVariable(name: "t", scope: !66, file: !3, line: 26, type: !20)
!66 = distinct !DILexicalBlock(scope: !51, file: !3, line: 26, column: 5)
!67 = !DILocation(line: 26, column: 14, scope: !66)
!68 = !DILocation(line: 26, column: 10, scope: !66)
!69 = !DILocation(line: 26, column: 21, scope: !70)
!70 = distinct !DILexicalBlock(scope: !66, file: !3, line: 26, column: 5)
!71 = !DILocation(line: 26, column: 23, scope: !70)
!72 = !DILocation(line: 26, column: 5, scope: !66)
!73 = !DILocation(line: 27, column: 21, scope: !74)
!74 = distinct !DILexicalBlock(scope: !70, file: !3, line: 26, column: 33)
!75 = !DILocation(line: 27, column: 16, scope: !74)
!76 = !DILocation(line: 27, column: 9, scope: !74)
!77 = !DILocation(line: 27, column: 19, scope: !74)
!78 = !DILocation(line: 28, column: 33, scope: !74)
!79 = !DILocation(line: 28, column: 25, scope: !74)
!80 = !DILocation(line: 28, column: 59, scope: !74)
!81 = !DILocation(line: 28, column: 52, scope: !74)
!82 = !DILocation(line: 28, column: 9, scope: !74)
!83 = !DILocation(line: 29, column: 5, scope: !74)
!84 = !DILocation(line: 26, column: 29, scope: !70)
!85 = !DILocation(line: 26, column: 5, scope: !70)
!86 = distinct !{!86, !72, !87, !88}
!87 = !DILocation(line: 29, column: 5, scope: !66)
!88 = !{!"llvm.loop.mustprogress"}
!89 = !DILocalVariable(name: "t", scope: !90, file: !3, line: 30, type: !20)
!90 = distinct !DILexicalBlock(scope: !51, file: !3, line: 30, column: 5)
!91 = !DILocation(line: 30, column: 14, scope: !90)
!92 = !DILocation(line: 30, column: 10, scope: !90)
!93 = !DILocation(line: 30, column: 21, scope: !94)
!94 = distinct !DILexicalBlock(scope: !90, file: !3, line: 30, column: 5)
!95 = !DILocation(line: 30, column: 23, scope: !94)
!96 = !DILocation(line: 30, column: 5, scope: !90)
!97 = !DILocation(line: 31, column: 30, scope: !94)
!98 = !DILocation(line: 31, column: 22, scope: !94)
!99 = !DILocation(line: 31, column: 9, scope: !94)
!100 = !DILocation(line: 30, column: 29, scope: !94)
!101 = !DILocation(line: 30, column: 5, scope: !94)
!102 = distinct !{!102, !96, !103, !88}
!103 = !DILocation(line: 31, column: 38, scope: !90)
!104 = !DILocation(line: 32, column: 12, scope: !51)
!105 = !DILocation(line: 32, column: 5, scope: !51)
!106 = !DILocation(line: 33, column: 5, scope: !51)
!107 = distinct !DISubprogram(name: "worker", scope: !3, file: !3, line: 17, type: !108, scopeLine: 17, flags: DIFlagPrototyped, spFlags: DISPFlagLocalToUnit | DISPFlagDefinition, unit: !2, retainedNodes: !54)
!108 = !DISubroutineType(types: !109)
!109 = !{!7, !7}
!110 = !DILocalVariable(name: "first", arg: 1, scope: !107, file: !3, line: 17, type: !7)
!111 = !DILocation(line: 17, column: 27, scope: !107)
!112 = !DILocalVariable(name: "i", scope: !113, file: !3, line: 18, type: !6)
!113 = distinct !DILexicalBlock(scope: !107, file: !3, line: 18, column: 5)
!114 = !DILocation(line: 18, column: 15, scope: !113)
!115 = !DILocation(line: 18, column: 28, scope: !113)
!116 = !DILocation(line: 18, column: 19, scope: !113)
!117 = !DILocation(line: 18, column: 10, scope: !113)
!118 = !DILocation(line: 18, column: 35, scope: !119)
!119 = distinct !DILexicalBlock(scope: !113, file: !3, line: 18, column: 5)
!120 = !DILocation(line: 18, column: 39, scope: !119)
!121 = !DILocation(line: 18, column: 37, scope: !119)
!122 = !DILocation(line: 18, column: 5, scope: !113)
!123 = !DILocation(line: 19, column: 19, scope: !119)
!124 = !DILocation(line: 19, column: 13, scope: !119)
!125 = !DILocation(line: 19, column: 9, scope: !119)
!126 = !DILocation(line: 18, column: 54, scope: !119)
!127 = !DILocation(line: 18, column: 5, scope: !119)
!128 = distinct !{!128, !122, !129, !88}
!129 = !DILocation(line: 19, column: 21, scope: !113)
!130 = !DILocation(line: 20, column: 5, scope: !107)
!131 = distinct !DISubprogram(name: "add", scope: !3, file: !3, line: 11, type: !132, scopeLine: 11, flags: DIFlagPrototyped, spFlags: DISPFlagLocalToUnit | DISPFlagDefinition, unit: !2, retainedNodes: !54)
!132 = !DISubroutineType(types: !133)
!133 = !{null, !6}
!134 = !DILocalVariable(name: "v", arg: 1, scope: !131, file: !3, line: 11, type: !6)
!135 = !DILocation(line: 11, column: 22, scope: !131)
!136 = !DILocation(line: 12, column: 5, scope: !131)
!137 = !DILocation(line: 13, column: 12, scope: !131)
!138 = !DILocation(line: 13, column: 9, scope: !131)
!139 = !DILocation(line: 14, column: 5, scope: !131)
!140 = !DILocation(line: 15, column: 1, scope: !131)
