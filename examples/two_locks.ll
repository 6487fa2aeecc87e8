source_filename = "two_locks.c"
target datalayout = "e-m:e-p270:32:32-p271:32:32-p272:64:64-i64:64-f80:128-n8:16:32:64-S128"
target triple = "x86_64-pc-linux-gnu"

%union.pthread_mutex_t = type { %struct.__pthread_mutex_s }
%struct.__pthread_mutex_s = type { i32, i32, i32, i32, i32, i16, i16, %struct.__pthread_internal_list }
%struct.__pthread_internal_list = type { ptr, ptr }

@total = internal global i64 0, align 8, !dbg !0
@one = internal global %union.pthread_mutex_t zeroinitializer, align 8, !dbg !7
@other = internal global %union.pthread_mutex_t zeroinitializer, align 8, !dbg !42

define dso_local i32 @main() #0 !dbg !56 {
v.0:
  %v.1 = alloca i32, align 4
  %v.2 = alloca [2 x i64], align 16
  store i32 0, ptr %v.1, align 4
  call void @llvm.dbg.declare(metadata ptr %v.2, metadata !60, metadata !DIExpression()), !dbg !66
  %v.3 = getelementptr inbounds [2 x i64], ptr %v.2, i64 0, i64 0, !dbg !67
  %v.4 = call i32 @pthread_create(ptr noundef %v.3, ptr noundef null, ptr noundef @add_first, ptr noundef null) #4, !dbg !68
  %v.5 = getelementptr inbounds [2 x i64], ptr %v.2, i64 0, i64 1, !dbg !69
  %v.6 = call i32 @pthread_create(ptr noundef %v.5, ptr noundef null, ptr noundef @add_second, ptr noundef null) #4, !dbg !70
  %v.7 = getelementptr inbounds [2 x i64], ptr %v.2, i64 0, i64 0, !dbg !71
  %v.8 = load i64, ptr %v.7, align 16, !dbg !71
  %v.9 = call i32 @pthread_join(i64 noundef %v.8, ptr noundef null), !dbg !72
  %v.10 = getelementptr inbounds [2 x i64], ptr %v.2, i64 0, i64 1, !dbg !73
  %v.11 = load i64, ptr %v.10, align 8, !dbg !73
  %v.12 = call i32 @pthread_join(i64 noundef %v.11, ptr noundef null), !dbg !74
  %v.13 = load i64, ptr @total, align 8, !dbg !75
  call void @pg_out(i64 noundef %v.13), !dbg !76
  ret i32 0, !dbg !77
}

define internal ptr @add_first(ptr noundef %v.0) #0 !dbg !78 {
v.1:
  %v.2 = alloca ptr, align 8
  %v.3 = alloca i64, align 8
  store ptr %v.0, ptr %v.2, align 8
  call void @llvm.dbg.declare(metadata ptr %v.2, metadata !81, metadata !DIExpression()), !dbg !82
  call void @llvm.dbg.declare(metadata ptr %v.3, metadata !83, metadata !DIExpression()), !dbg !85
  store i64 0, ptr %v.3, align 8, !dbg !85
  br label %v.4, !dbg !86
v.4:
  %v.5 = load i64, ptr %v.3, align 8, !dbg !87
  %v.6 = call i64 @pg_in_len(), !dbg !89
  %v.7 = icmp slt i64 %v.5, %v.6, !dbg !90
  br i1 %v.7, label %v.8, label %v.18, !dbg !91
v.8:
  %v.9 = call i32 @pthread_mutex_lock(ptr noundef @one) #4, !dbg !92
  %v.10 = load i64, ptr %v.3, align 8, !dbg !94
  %v.11 = call i64 @pg_in(i64 noundef %v.10), !dbg !95
  %v.12 = load i64, ptr @total, align 8, !dbg !96
  %v.13 = add nsw i64 %v.12, %v.11, !dbg !96
  store i64 %v.13, ptr @total, align 8, !dbg !96
  %v.14 = call i32 @pthread_mutex_unlock(ptr noundef @one) #4, !dbg !97
  br label %v.15, !dbg !98
v.15:
  %v.16 = load i64, ptr %v.3, align 8, !dbg !99
  %v.17 = add nsw i64 %v.16, 2, !dbg !99
  store i64 %v.17, ptr %v.3, align 8, !dbg !99
  br label %v.4, !dbg !100, !llvm.loop !101
v.18:
  %v.19 = load ptr, ptr %v.2, align 8, !dbg !104
  ret ptr %v.19, !dbg !105
}

define internal ptr @add_second(ptr noundef %v.0) #0 !dbg !106 {
v.1:
  %v.2 = alloca ptr, align 8
  %v.3 = alloca i64, align 8
  store ptr %v.0, ptr %v.2, align 8
  call void @llvm.dbg.declare(metadata ptr %v.2, metadata !107, metadata !DIExpression()), !dbg !108
  call void @llvm.dbg.declare(metadata ptr %v.3, metadata !109, metadata !DIExpression()), !dbg !111
  store i64 1, ptr %v.3, align 8, !dbg !111
  br label %v.4, !dbg !112
v.4:
  %v.5 = load i64, ptr %v.3, align 8, !dbg !113
  %v.6 = call i64 @pg_in_len(), !dbg !115
  %v.7 = icmp slt i64 %v.5, %v.6, !dbg !116
  br i1 %v.7, label %v.8, label %v.18, !dbg !117
v.8:
  %v.9 = call i32 @pthread_mutex_lock(ptr noundef @other) #4, !dbg !118
  %v.10 = load i64, ptr %v.3, align 8, !dbg !120
  %v.11 = call i64 @pg_in(i64 noundef %v.10), !dbg !121
  %v.12 = load i64, ptr @total, align 8, !dbg !122
  %v.13 = add nsw i64 %v.12, %v.11, !dbg !122
  store i64 %v.13, ptr @total, align 8, !dbg !122
  %v.14 = call i32 @pthread_mutex_unlock(ptr noundef @other) #4, !dbg !123
  br label %v.15, !dbg !124
v.15:
  %v.16 = load i64, ptr %v.3, align 8, !dbg !125
  %v.17 = add nsw i64 %v.16, 2, !dbg !125
  store i64 %v.17, ptr %v.3, align 8, !dbg !125
  br label %v.4, !dbg !126, !llvm.loop !127
v.18:
  %v.19 = load ptr, ptr %v.2, align 8, !dbg !129
  ret ptr %v.19, !dbg !130
}

declare void @llvm.dbg.declare(metadata, metadata, metadata) #1
declare i32 @pthread_create(ptr noundef, ptr noundef, ptr noundef, ptr noundef) #2
declare i32 @pthread_join(i64 noundef, ptr noundef) #3
declare void @pg_out(i64 noundef) #3
declare i64 @pg_in_len() #3
declare i32 @pthread_mutex_lock(ptr noundef) #2
declare i64 @pg_in(i64 noundef) #3
declare i32 @pthread_mutex_unlock(ptr noundef) #2

attributes #0 = { noinline nounwind optnone uwtable "frame-pointer"="all" "min-legal-vector-width"="0" "no-trapping-math"="true" "stack-protector-buffer-size"="8" "target-cpu"="x86-64" "target-features"="+cx8,+fxsr,+mmx,+sse,+sse2,+x87" "tune-cpu"="generic" }
attributes #1 = { nocallback nofree nosync nounwind speculatable willreturn memory(none) }
attributes #2 = { nounwind "frame-pointer"="all" "no-trapping-math"="true" "stack-protector-buffer-size"="8" "target-cpu"="x86-64" "target-features"="+cx8,+fxsr,+mmx,+sse,+sse2,+x87" "tune-cpu"="generic" }
attributes #3 = { "frame-pointer"="all" "no-trapping-math"="true" "stack-protector-buffer-size"="8" "target-cpu"="x86-64" "target-features"="+cx8,+fxsr,+mmx,+sse,+sse2,+x87" "tune-cpu"="generic" }
attributes #4 = { nounwind }
!llvm.dbg.cu = !{!2}
!llvm.module.flags = !{!48, !49, !50, !51, !52, !53, !54}
!llvm.ident = !{!55}
!0 = !DIGlobalVariableExpression(var: !1, expr: !DIExpression())
!1 = distinct !DIGlobalVariable(name: "total", scope: !2, file: !3, line: 7, type: !44, isLocal: true, isDefinition: true)
!2 = distinct !DICompileUnit(language: DW_LANG_C11, file: !3, producer: "Debian clang version 16.0.6 (15~deb12u1)", isOptimized: false, runtimeVersion: 0, emissionKind: FullDebug, retainedTypes: !4, globals: !6, splitDebugInlining: false, nameTableKind: None)
!3 = !DIFile(filename: "two_locks.c", directory: ".", checksumkind: CSK_MD5, checksum: "1a0818787ee706b67943ce2237b1f400")
!4 = !{!5}
!5 = !DIDerivedType(tag: DW_TAG_pointer_type, baseType: null, size: 64)
!6 = !{!0, !7, !42}
!7 = !DIGlobalVariableExpression(var: !8, expr: !DIExpression())
!8 = distinct !DIGlobalVariable(name: "one", scope: !2, file: !3, line: 6, type: !9, isLocal: true, isDefinition: true)
!9 = !DIDerivedType(tag: DW_TAG_typedef, name: "pthread_mutex_t", file: !10, line: 72, baseType: !11)
!10 = !DIFile(filename: "/usr/include/x86_64-linux-gnu/bits/pthreadtypes.h", directory: "", checksumkind: CSK_MD5, checksum: "735e3bf264ff9d8f5d95898b1692fbdb")
!11 = distinct !DICompositeType(tag: DW_TAG_union_type, file: !10, line: 67, size: 320, elements: !12)
!12 = !{!13, !35, !40}
!13 = !DIDerivedType(tag: DW_TAG_member, name: "__data", scope: !11, file: !10, line: 69, baseType: !14, size: 320)
!14 = distinct !DICompositeType(tag: DW_TAG_structure_type, name: "__pthread_mutex_s", file: !15, line: 22, size: 320, elements: !16)
!15 = !DIFile(filename: "/usr/include/x86_64-linux-gnu/bits/struct_mutex.h", directory: "", checksumkind: CSK_MD5, checksum: "584baedd80e6041b81caae7f496091c0")
!16 = !{!17, !19, !21, !22, !23, !24, !26, !27}
!17 = !DIDerivedType(tag: DW_TAG_member, name: "__lock", scope: !14, file: !15, line: 24, baseType: !18, size: 32)
!18 = !DIBasicType(name: "int", size: 32, encoding: DW_ATE_signed)
!19 = !DIDerivedType(tag: DW_TAG_member, name: "__count", scope: !14, file: !15, line: 25, baseType: !20, size: 32, offset: 32)
!20 = !DIBasicType(name: "unsigned int", size: 32, encoding: DW_ATE_unsigned)
!21 = !DIDerivedType(tag: DW_TAG_member, name: "__owner", scope: !14, file: !15, line: 26, baseType: !18, size: 32, offset: 64)
!22 = !DIDerivedType(tag: DW_TAG_member, name: "__nusers", scope: !14, file: !15, line: 28, baseType: !20, size: 32, offset: 96)
!23 = !DIDerivedType(tag: DW_TAG_member, name: "__kind", scope: !14, file: !15, line: 32, baseType: !18, size: 32, offset: 128)
!24 = !DIDerivedType(tag: DW_TAG_member, name: "__spins", scope: !14, file: !15, line: 34, baseType: !25, size: 16, offset: 160)
!25 = !DIBasicType(name: "short", size: 16, encoding: DW_ATE_signed)
!26 = !DIDerivedType(tag: DW_TAG_member, name: "__elision", scope: !14, file: !15, line: 35, baseType: !25, size: 16, offset: 176)
!27 = !DIDerivedType(tag: DW_TAG_member, name: "__list", scope: !14, file: !15, line: 36, baseType: !28, size: 128, offset: 192)
!28 = !DIDerivedType(tag: DW_TAG_typedef, name: "__pthread_list_t", file: !29, line: 55, baseType: !30)
!29 = !DIFile(filename: "/usr/include/x86_64-linux-gnu/bits/thread-shared-types.h", directory: "", checksumkind: CSK_MD5, checksum: "04c81e86d34dad9c99ad006d32e47a0d")
!30 = distinct !DICompositeType(tag: DW_TAG_structure_type, name: "__pthread_internal_list", file: !29, line: 51, size: 128, elements: !31)
!31 = !{!32, !34}
!32 = !DIDerivedType(tag: DW_TAG_member, name: "__prev", scope: !30, file: !29, line: 53, baseType: !33, size: 64)
!33 = !DIDerivedType(tag: DW_TAG_pointer_type, baseType: !30, size: 64)
!34 = !DIDerivedType(tag: DW_TAG_member, name: "__next", scope: !30, file: !29, line: 54, baseType: !33, size: 64, offset: 64)
!35 = !DIDerivedType(tag: DW_TAG_member, name: "__size", scope: !11, file: !10, line: 70, baseType: !36, size: 320)
!36 = !DICompositeType(tag: DW_TAG_array_type, baseType: !37, size: 320, elements: !38)
!37 = !DIBasicType(name: "char", size: 8, encoding: DW_ATE_signed_char)
!38 = !{!39}
!39 = !DISubrange(count: 40)
!40 = !DIDerivedType(tag: DW_TAG_member, name: "__align", scope: !11, file: !10, line: 71, baseType: !41, size: 64)
!41 = !DIBasicType(name: "long", size: 64, encoding: DW_ATE_signed)
!42 = !DIGlobalVariableExpression(var: !43, expr: !DIExpression())
!43 = distinct !DIGlobalVariable(name: "other", scope: !2, file: !3, line: 6, type: !9, isLocal: true, isDefinition: true)
!44 = !DIDerivedType(tag: DW_TAG_typedef, name: "int64_t", file: !45, line: 27, baseType: !46)
!45 = !DIFile(filename: "/usr/include/x86_64-linux-gnu/bits/stdint-intn.h", directory: "", checksumkind: CSK_MD5, checksum: "55bcbdc3159515ebd91d351a70d505f4")
!46 = !DIDerivedType(tag: DW_TAG_typedef, name: "__int64_t", file: !47, line: 44, baseType: !41)
!47 = !DIFile(filename: "/usr/include/x86_64-linux-gnu/bits/types.h", directory: "", checksumkind: CSK_MD5, checksum: "d108b5f93a74c50510d7d9bc0ab36df9")
!48 = !{i32 7, !"Dwarf Version", i32 5}
!49 = !{i32 2, !"Debug Info Version", i32 3}
!50 = !{i32 1, !"wchar_size", i32 4}
!51 = !{i32 8, !"PIC Level", i32 2}
!52 = !{i32 7, !"PIE Level", i32 2}
!53 = !{i32 7, !"uwtable", i32 2}
!54 = !{i32 7, !"frame-pointer", i32 2}
!55 = !{!"Debian clang version 16.0.6 (15~deb12u1)"}
!56 = distinct !DISubprogram(name: "main", scope: !3, file: !3, line: 27, type: !57, scopeLine: 27, flags: DIFlagPrototyped, spFlags: DISPFlagDefinition, unit: !2, retainedNodes: !59)
!57 = !DISubroutineType(types: !58)
!58 = !{!18}
!59 = !{}
!60 = !DILocalVariable(name: "threads", scope: !56, file: !3, line: 28, type: !61)
!61 = !DICompositeType(tag: DW_TAG_array_type, baseType: !62, size: 128, elements: !64)
!62 = !DIDerivedType(tag: DW_TAG_typedef, name: "pthread_t", file: !10, line: 27, baseType: !63)
!63 = !DIBasicType(name: "unsigned long", size: 64, encoding: DW_ATE_unsigned)
!64 = !{!65}
!65 = !DISubrange(count: 2)
!66 = !DILocation(line: 28, column: 15, scope: !56)
!67 = !DILocation(line: 29, column: 21, scope: !56)
!68 = !DILocation(line: 29, column: 5, scope: !56)
!69 = !DILocation(line: 30, column: 21, scope: !56)
!70 = !DILocation(line: 30, column: 5, scope: !56)
!71 = !DILocation(line: 31, column: 18, scope: !56)
!72 = !DILocation(line: 31, column: 5, scope: !56)
!73 = !DILocation(line: 32, column: 18, scope: !56)
!74 = !DILocation(line: 32, column: 5, scope: !56)
!75 = !DILocation(line: 33, column: 12, scope: !56)
!76 = !DILocation(line: 33, column: 5, scope: !56)
!77 = !DILocation(line: 34, column: 5, scope: !56)
!78 = distinct !DISubprogram(name: "add_first", scope: !3, file: !3, line: 9, type: !79, scopeLine: 9, flags: DIFlagPrototyped, spFlags: DISPFlagLocalToUnit | DISPFlagDefinition, unit: !2, retainedNodes: !59)
!79 = !DISubroutineType(types: !80)
!80 = !{!5, !5}
!81 = !DILocalVariable(name: "of", arg: 1, scope: !78, file: !3, line: 9, type: !5)
!82 = !DILocation(line: 9, column: 30, scope: !78)
!83 = !DILocalVariable(name: "i", scope: !84, file: !3, line: 10, type: !44)
!84 = distinct !DILexicalBlock(scope: !78, file: !3, line: 10, column: 5)
!85 = !DILocation(line: 10, column: 18, scope: !84)
!86 = !DILocation(line: 10, column: 10, scope: !84)
!87 = !DILocation(line: 10, column: 25, scope: !88)
!88 = distinct !DILexicalBlock(scope: !84, file: !3, line: 10, column: 5)
!89 = !DILocation(line: 10, column: 29, scope: !88)
!90 = !DILocation(line: 10, column: 27, scope: !88)
!91 = !DILocation(line: 10, column: 5, scope: !84)
!92 = !DILocation(line: 11, column: 9, scope: !93)
!93 = distinct !DILexicalBlock(scope: !88, file: !3, line: 10, column: 50)
!94 = !DILocation(line: 12, column: 24, scope: !93)
!95 = !DILocation(line: 12, column: 18, scope: !93)
!96 = !DILocation(line: 12, column: 15, scope: !93)
!97 = !DILocation(line: 13, column: 9, scope: !93)
!98 = !DILocation(line: 14, column: 5, scope: !93)
!99 = !DILocation(line: 10, column: 44, scope: !88)
!100 = !DILocation(line: 10, column: 5, scope: !88)
!101 = distinct !{!101, !91, !102, !103}
!102 = !DILocation(line: 14, column: 5, scope: !84)
!103 = !{!"llvm.loop.mustprogress"}
!104 = !DILocation(line: 15, column: 12, scope: !78)
!105 = !DILocation(line: 15, column: 5, scope: !78)
!106 = distinct !DISubprogram(name: "add_second", scope: !3, file: !3, line: 18, type: !79, scopeLine: 18, flags: DIFlagPrototyped, spFlags: DISPFlagLocalToUnit | DISPFlagDefinition, unit: !2, retainedNodes: !59)
!107 = !DILocalVariable(name: "of", arg: 1, scope: !106, file: !3, line: 18, type: !5)
!108 = !DILocation(line: 18, column: 31, scope: !106)
!109 = !DILocalVariable(name: "i", scope: !110, file: !3, line: 19, type: !44)
!110 = distinct !DILexicalBlock(scope: !106, file: !3, line: 19, column: 5)
!111 = !DILocation(line: 19, column: 18, scope: !110)
!112 = !DILocation(line: 19, column: 10, scope: !110)
!113 = !DILocation(line: 19, column: 25, scope: !114)
!114 = distinct !DILexicalBlock(scope: !110, file: !3, line: 19, column: 5)
!115 = !DILocation(line: 19, column: 29, scope: !114)
!116 = !DILocation(line: 19, column: 27, scope: !114)
!117 = !DILocation(line: 19, column: 5, scope: !110)
!118 = !DILocation(line: 20, column: 9, scope: !119)
!119 = distinct !DILexicalBlock(scope: !114, file: !3, line: 19, column: 50)
!120 = !DILocation(line: 21, column: 24, scope: !119)
!121 = !DILocation(line: 21, column: 18, scope: !119)
!122 = !DILocation(line: 21, column: 15, scope: !119)
!123 = !DILocation(line: 22, column: 9, scope: !119)
!124 = !DILocation(line: 23, column: 5, scope: !119)
!125 = !DILocation(line: 19, column: 44, scope: !114)
!126 = !DILocation(line: 19, column: 5, scope: !114)
!127 = distinct !{!127, !117, !128, !103}
!128 = !DILocation(line: 23, column: 5, scope: !110)
!129 = !DILocation(line: 24, column: 12, scope: !106)
!130 = !DILocation(line: 24, column: 5, scope: !106)
