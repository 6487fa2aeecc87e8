source_filename = "crossed_locks.c"
target datalayout = "e-m:e-p270:32:32-p271:32:32-p272:64:64-i64:64-f80:128-n8:16:32:64-S128"
target triple = "x86_64-pc-linux-gnu"

%union.pthread_mutex_t = type { %struct.__pthread_mutex_s }
%struct.__pthread_mutex_s = type { i32, i32, i32, i32, i32, i16, i16, %struct.__pthread_internal_list }
%struct.__pthread_internal_list = type { ptr, ptr }

@locks = internal global [2 x %union.pthread_mutex_t] zeroinitializer, align 16, !dbg !0
@sums = internal global [2 x i64] zeroinitializer, align 16, !dbg !8

define dso_local i32 @main() #0 !dbg !58 {
v.0:
  %v.1 = alloca i32, align 4
  %v.2 = alloca [2 x i64], align 16
  %v.3 = alloca i64, align 8
  %v.4 = alloca i32, align 4
  store i32 0, ptr %v.1, align 4
  call void @llvm.dbg.declare(metadata ptr %v.2, metadata !62, metadata !DIExpression()), !dbg !66
  call void @llvm.dbg.declare(metadata ptr %v.3, metadata !67, metadata !DIExpression()), !dbg !69
  store i64 0, ptr %v.3, align 8, !dbg !69
  br label %v.5, !dbg !70
v.5:
  %v.6 = load i64, ptr %v.3, align 8, !dbg !71
  %v.7 = icmp slt i64 %v.6, 2, !dbg !73
  br i1 %v.7, label %v.8, label %v.20, !dbg !74
v.8:
  %v.9 = load i64, ptr %v.3, align 8, !dbg !75
  %v.10 = getelementptr inbounds [2 x %union.pthread_mutex_t], ptr @locks, i64 0, i64 %v.9, !dbg !77
  %v.11 = call i32 @pthread_mutex_init(ptr noundef %v.10, ptr noundef null) #4, !dbg !78
  %v.12 = load i64, ptr %v.3, align 8, !dbg !79
  %v.13 = getelementptr inbounds [2 x i64], ptr %v.2, i64 0, i64 %v.12, !dbg !80
  %v.14 = load i64, ptr %v.3, align 8, !dbg !81
  %v.15 = inttoptr i64 %v.14 to ptr, !dbg !82
  %v.16 = call i32 @pthread_create(ptr noundef %v.13, ptr noundef null, ptr noundef @add, ptr noundef %v.15) #4, !dbg !83
  br label %v.17, !dbg !84
v.17:
  %v.18 = load i64, ptr %v.3, align 8, !dbg !85
  %v.19 = add nsw i64 %v.18, 1, !dbg !85
  store i64 %v.19, ptr %v.3, align 8, !dbg !85
  br label %v.5, !dbg !86, !llvm.loop !87
v.20:
  call void @llvm.dbg.declare(metadata ptr %v.4, metadata !90, metadata !DIExpression()), !dbg !92
  store i32 0, ptr %v.4, align 4, !dbg !92
  br label %v.21, !dbg !93
v.21:
  %v.22 = load i32, ptr %v.4, align 4, !dbg !94
  %v.23 = icmp slt i32 %v.22, 2, !dbg !96
  br i1 %v.23, label %v.24, label %v.37, !dbg !97
v.24:
  %v.25 = load i32, ptr %v.4, align 4, !dbg !98
  %v.26 = sext i32 %v.25 to i64, !dbg !100
  %v.27 = getelementptr inbounds [2 x i64], ptr %v.2, i64 0, i64 %v.26, !dbg !100
  %v.28 = load i64, ptr %v.27, align 8, !dbg !100
  %v.29 = call i32 @pthread_join(i64 noundef %v.28, ptr noundef null), !dbg !101
  %v.30 = load i32, ptr %v.4, align 4, !dbg !102
  %v.31 = sext i32 %v.30 to i64, !dbg !103
  %v.32 = getelementptr inbounds [2 x i64], ptr @sums, i64 0, i64 %v.31, !dbg !103
  %v.33 = load i64, ptr %v.32, align 8, !dbg !103
  call void @pg_out(i64 noundef %v.33), !dbg !104
  br label %v.34, !dbg !105
v.34:
  %v.35 = load i32, ptr %v.4, align 4, !dbg !106
  %v.36 = add nsw i32 %v.35, 1, !dbg !106
  store i32 %v.36, ptr %v.4, align 4, !dbg !106
  br label %v.21, !dbg !107, !llvm.loop !108
v.37:
  ret i32 0, !dbg !110
}

define internal ptr @add(ptr noundef %v.0) #0 !dbg !111 {
v.1:
  %v.2 = alloca ptr, align 8
  %v.3 = alloca i64, align 8
  %v.4 = alloca i64, align 8
  %v.5 = alloca i64, align 8
  store ptr %v.0, ptr %v.2, align 8
  call void @llvm.dbg.declare(metadata ptr %v.2, metadata !114, metadata !DIExpression()), !dbg !115
  call void @llvm.dbg.declare(metadata ptr %v.3, metadata !116, metadata !DIExpression()), !dbg !117
  %v.6 = load ptr, ptr %v.2, align 8, !dbg !118
  %v.7 = ptrtoint ptr %v.6 to i64, !dbg !119
  store i64 %v.7, ptr %v.3, align 8, !dbg !117
  call void @llvm.dbg.declare(metadata ptr %v.4, metadata !120, metadata !DIExpression()), !dbg !121
  %v.8 = load i64, ptr %v.3, align 8, !dbg !122
  %v.9 = sub nsw i64 1, %v.8, !dbg !123
  store i64 %v.9, ptr %v.4, align 8, !dbg !121
  %v.10 = load i64, ptr %v.3, align 8, !dbg !124
  %v.11 = getelementptr inbounds [2 x %union.pthread_mutex_t], ptr @locks, i64 0, i64 %v.10, !dbg !125
  %v.12 = call i32 @pthread_mutex_lock(ptr noundef %v.11) #4, !dbg !126
  call void @llvm.dbg.declare(metadata ptr %v.5, metadata !127, metadata !DIExpression()), !dbg !128
  %v.13 = call i64 @total(), !dbg !129
  store i64 %v.13, ptr %v.5, align 8, !dbg !128
  %v.14 = load i64, ptr %v.4, align 8, !dbg !130
  %v.15 = getelementptr inbounds [2 x %union.pthread_mutex_t], ptr @locks, i64 0, i64 %v.14, !dbg !131
  %v.16 = call i32 @pthread_mutex_lock(ptr noundef %v.15) #4, !dbg !132
  %v.17 = load i64, ptr %v.5, align 8, !dbg !133
  %v.18 = load i64, ptr %v.3, align 8, !dbg !134
  %v.19 = getelementptr inbounds [2 x i64], ptr @sums, i64 0, i64 %v.18, !dbg !135
  %v.20 = load i64, ptr %v.19, align 8, !dbg !136
  %v.21 = add nsw i64 %v.20, %v.17, !dbg !136
  store i64 %v.21, ptr %v.19, align 8, !dbg !136
  %v.22 = load i64, ptr %v.5, align 8, !dbg !137
  %v.23 = load i64, ptr %v.4, align 8, !dbg !138
  %v.24 = getelementptr inbounds [2 x i64], ptr @sums, i64 0, i64 %v.23, !dbg !139
  %v.25 = load i64, ptr %v.24, align 8, !dbg !140
  %v.26 = sub nsw i64 %v.25, %v.22, !dbg !140
  store i64 %v.26, ptr %v.24, align 8, !dbg !140
  %v.27 = load i64, ptr %v.4, align 8, !dbg !141
  %v.28 = getelementptr inbounds [2 x %union.pthread_mutex_t], ptr @locks, i64 0, i64 %v.27, !dbg !142
  %v.29 = call i32 @pthread_mutex_unlock(ptr noundef %v.28) #4, !dbg !143
  %v.30 = load i64, ptr %v.3, align 8, !dbg !144
  %v.31 = getelementptr inbounds [2 x %union.pthread_mutex_t], ptr @locks, i64 0, i64 %v.30, !dbg !145
  %v.32 = call i32 @pthread_mutex_unlock(ptr noundef %v.31) #4, !dbg !146
  ret ptr null, !dbg !147
}

define internal i64 @total() #0 !dbg !148 {
v.0:
  %v.1 = alloca i64, align 8
  %v.2 = alloca i64, align 8
  call void @llvm.dbg.declare(metadata ptr %v.1, metadata !151, metadata !DIExpression()), !dbg !152
  store i64 0, ptr %v.1, align 8, !dbg !152
  call void @llvm.dbg.declare(metadata ptr %v.2, metadata !153, metadata !DIExpression()), !dbg !155
  store i64 0, ptr %v.2, align 8, !dbg !155
  br label %v.3, !dbg !156
v.3:
  %v.4 = load i64, ptr %v.2, align 8, !dbg !157
  %v.5 = call i64 @pg_in_len(), !dbg !159
  %v.6 = icmp slt i64 %v.4, %v.5, !dbg !160
  br i1 %v.6, label %v.7, label %v.15, !dbg !161
v.7:
  %v.8 = load i64, ptr %v.2, align 8, !dbg !162
  %v.9 = call i64 @pg_in(i64 noundef %v.8), !dbg !163
  %v.10 = load i64, ptr %v.1, align 8, !dbg !164
  %v.11 = add nsw i64 %v.10, %v.9, !dbg !164
  store i64 %v.11, ptr %v.1, align 8, !dbg !164
  br label %v.12, !dbg !165
v.12:
  %v.13 = load i64, ptr %v.2, align 8, !dbg !166
  %v.14 = add nsw i64 %v.13, 1, !dbg !166
  store i64 %v.14, ptr %v.2, align 8, !dbg !166
  br label %v.3, !dbg !167, !llvm.loop !168
v.15:
  %v.16 = load i64, ptr %v.1, align 8, !dbg !170
  ret i64 %v.16, !dbg !171
}

declare void @llvm.dbg.declare(metadata, metadata, metadata) #1
declare i32 @pthread_mutex_init(ptr noundef, ptr noundef) #2
declare i32 @pthread_create(ptr noundef, ptr noundef, ptr noundef, ptr noundef) #2
declare i32 @pthread_join(i64 noundef, ptr noundef) #3
declare void @pg_out(i64 noundef) #3
declare i32 @pthread_mutex_lock(ptr noundef) #2
declare i32 @pthread_mutex_unlock(ptr noundef) #2
declare i64 @pg_in_len() #3
declare i64 @pg_in(i64 noundef) #3

attributes #0 = { noinline nounwind optnone uwtable "frame-pointer"="all" "min-legal-vector-width"="0" "no-trapping-math"="true" "stack-protector-buffer-size"="8" "target-cpu"="x86-64" "target-features"="+cx8,+fxsr,+mmx,+sse,+sse2,+x87" "tune-cpu"="generic" }
attributes #1 = { nocallback nofree nosync nounwind speculatable willreturn memory(none) }
attributes #2 = { nounwind "frame-pointer"="all" "no-trapping-math"="true" "stack-protector-buffer-size"="8" "target-cpu"="x86-64" "target-features"="+cx8,+fxsr,+mmx,+sse,+sse2,+x87" "tune-cpu"="generic" }
attributes #3 = { "frame-pointer"="all" "no-trapping-math"="true" "stack-protector-buffer-size"="8" "target-cpu"="x86-64" "target-features"="+cx8,+fxsr,+mmx,+sse,+sse2,+x87" "tune-cpu"="generic" }
attributes #4 = { nounwind }
!llvm.dbg.cu = !{!2}
!llvm.module.flags = !{!50, !51, !52, !53, !54, !55, !56}
!llvm.ident = !{!57}
!0 = !DIGlobalVariableExpression(var: !1, expr: !DIExpression())
!1 = distinct !DIGlobalVariable(name: "locks", scope: !2, file: !3, line: 6, type: !17, isLocal: true, isDefinition: true)
!2 = distinct !DICompileUnit(language: DW_LANG_C11, file: !3, producer: "Debian clang version 16.0.6 (15~deb12u1)", isOptimized: false, runtimeVersion: 0, emissionKind: FullDebug, retainedTypes: !4, globals: !7, splitDebugInlining: false, nameTableKind: None)
!3 = !DIFile(filename: "crossed_locks.c", directory: ".", checksumkind: CSK_MD5, checksum: "66562a41ee0f3a03d6e35585053789dc")
!4 = !{!5, !6}
!5 = !DIDerivedType(tag: DW_TAG_pointer_type, baseType: null, size: 64)
!6 = !DIBasicType(name: "long", size: 64, encoding: DW_ATE_signed)
!7 = !{!0, !8}
!8 = !DIGlobalVariableExpression(var: !9, expr: !DIExpression())
!9 = distinct !DIGlobalVariable(name: "sums", scope: !2, file: !3, line: 7, type: !10, isLocal: true, isDefinition: true)
!10 = !DICompositeType(tag: DW_TAG_array_type, baseType: !11, size: 128, elements: !15)
!11 = !DIDerivedType(tag: DW_TAG_typedef, name: "int64_t", file: !12, line: 27, baseType: !13)
!12 = !DIFile(filename: "/usr/include/x86_64-linux-gnu/bits/stdint-intn.h", directory: "", checksumkind: CSK_MD5, checksum: "55bcbdc3159515ebd91d351a70d505f4")
!13 = !DIDerivedType(tag: DW_TAG_typedef, name: "__int64_t", file: !14, line: 44, baseType: !6)
!14 = !DIFile(filename: "/usr/include/x86_64-linux-gnu/bits/types.h", directory: "", checksumkind: CSK_MD5, checksum: "d108b5f93a74c50510d7d9bc0ab36df9")
!15 = !{!16}
!16 = !DISubrange(count: 2)
!17 = !DICompositeType(tag: DW_TAG_array_type, baseType: !18, size: 640, elements: !15)
!18 = !DIDerivedType(tag: DW_TAG_typedef, name: "pthread_mutex_t", file: !19, line: 72, baseType: !20)
!19 = !DIFile(filename: "/usr/include/x86_64-linux-gnu/bits/pthreadtypes.h", directory: "", checksumkind: CSK_MD5, checksum: "735e3bf264ff9d8f5d95898b1692fbdb")
!20 = distinct !DICompositeType(tag: DW_TAG_union_type, file: !19, line: 67, size: 320, elements: !21)
!21 = !{!22, !44, !49}
!22 = !DIDerivedType(tag: DW_TAG_member, name: "__data", scope: !20, file: !19, line: 69, baseType: !23, size: 320)
!23 = distinct !DICompositeType(tag: DW_TAG_structure_type, name: "__pthread_mutex_s", file: !24, line: 22, size: 320, elements: !25)
!24 = !DIFile(filename: "/usr/include/x86_64-linux-gnu/bits/struct_mutex.h", directory: "", checksumkind: CSK_MD5, checksum: "584baedd80e6041b81caae7f496091c0")
!25 = !{!26, !28, !30, !31, !32, !33, !35, !36}
!26 = !DIDerivedType(tag: DW_TAG_member, name: "__lock", scope: !23, file: !24, line: 24, baseType: !27, size: 32)
!27 = !DIBasicType(name: "int", size: 32, encoding: DW_ATE_signed)
!28 = !DIDerivedType(tag: DW_TAG_member, name: "__count", scope: !23, file: !24, line: 25, baseType: !29, size: 32, offset: 32)
!29 = !DIBasicType(name: "unsigned int", size: 32, encoding: DW_ATE_unsigned)
!30 = !DIDerivedType(tag: DW_TAG_member, name: "__owner", scope: !23, file: !24, line: 26, baseType: !27, size: 32, offset: 64)
!31 = !DIDerivedType(tag: DW_TAG_member, name: "__nusers", scope: !23, file: !24, line: 28, baseType: !29, size: 32, offset: 96)
!32 = !DIDerivedType(tag: DW_TAG_member, name: "__kind", scope: !23, file: !24, line: 32, baseType: !27, size: 32, offset: 128)
!33 = !DIDerivedType(tag: DW_TAG_member, name: "__spins", scope: !23, file: !24, line: 34, baseType: !34, size: 16, offset: 160)
!34 = !DIBasicType(name: "short", size: 16, encoding: DW_ATE_signed)
!35 = !DIDerivedType(tag: DW_TAG_member, name: "__elision", scope: !23, file: !24, line: 35, baseType: !34, size: 16, offset: 176)
!36 = !DIDerivedType(tag: DW_TAG_member, name: "__list", scope: !23, file: !24, line: 36, baseType: !37, size: 128, offset: 192)
!37 = !DIDerivedType(tag: DW_TAG_typedef, name: "__pthread_list_t", file: !38, line: 55, baseType: !39)
!38 = !DIFile(filename: "/usr/include/x86_64-linux-gnu/bits/thread-shared-types.h", directory: "", checksumkind: CSK_MD5, checksum: "04c81e86d34dad9c99ad006d32e47a0d")
!39 = distinct !DICompositeType(tag: DW_TAG_structure_type, name: "__pthread_internal_list", file: !38, line: 51, size: 128, elements: !40)
!40 = !{!41, !43}
!41 = !DIDerivedType(tag: DW_TAG_member, name: "__prev", scope: !39, file: !38, line: 53, baseType: !42, size: 64)
!42 = !DIDerivedType(tag: DW_TAG_pointer_type, baseType: !39, size: 64)
!43 = !DIDerivedType(tag: DW_TAG_member, name: "__next", scope: !39, file: !38, line: 54, baseType: !42, size: 64, offset: 64)
!44 = !DIDerivedType(tag: DW_TAG_member, name: "__size", scope: !20, file: !19, line: 70, baseType: !45, size: 320)
!45 = !DICompositeType(tag: DW_TAG_array_type, baseType: !46, size: 320, elements: !47)
!46 = !DIBasicType(name: "char", size: 8, encoding: DW_ATE_signed_char)
!47 = !{!48}
!48 = !DISubrange(count: 40)
!49 = !DIDerivedType(tag: DW_TAG_member, name: "__align", scope: !20, file: !19, line: 71, baseType: !6, size: 64)
!50 = !{i32 7, !"Dwarf Version", i32 5}
!51 = !{i32 2, !"Debug Info Version", i32 3}
!52 = !{i32 1, !"wchar_size", i32 4}
!53 = !{i32 8, !"PIC Level", i32 2}
!54 = !{i32 7, !"PIE Level", i32 2}
!55 = !{i32 7, !"uwtable", i32 2}
!56 = !{i32 7, !"frame-pointer", i32 2}
!57 = !{!"Debian clang version 16.0.6 (15~deb12u1)"}
!58 = distinct !DISubprogram(name: "main", scope: !3, file: !3, line: 28, type: !59, scopeLine: 28, flags: DIFlagPrototyped, spFlags: DISPFlagDefinition, unit: !2, retainedNodes: !61)
!59 = !DISubroutineType(types: !60)
!60 = !{!27}
!61 = !{}
!62 = !DILocalVariable(name: "threads", scope: !58, file: !3, line: 29, type: !63)
!63 = !DICompositeType(tag: DW_TAG_array_type, baseType: !64, size: 128, elements: !15)
!64 = !DIDerivedType(tag: DW_TAG_typedef, name: "pthread_t", file: !19, line: 27, baseType: !65)
!65 = !DIBasicType(name: "unsigned long", size: 64, encoding: DW_ATE_unsigned)
!66 = !DILocation(line: 29, column: 15, scope: !58)
!67 = !DILocalVariable(name: "i", scope: !68, file: !3, line: 30, type: !6)
!68 = distinct !DILexicalBlock(scope: !58, file: !3, line: 30, column: 5)
!69 = !DILocation(line: 30, column: 15, scope: !68)
!70 = !DILocation(line: 30, column: 10, scope: !68)
!71 = !DILocation(line: 30, column: 22, scope: !72)
!72 = distinct !DILexicalBlock(scope: !68, file: !3, line: 30, column: 5)
!73 = !DILocation(line: 30, column: 24, scope: !72)
!74 = !DILocation(line: 30, column: 5, scope: !68)
!75 = !DILocation(line: 31, column: 35, scope: !76)
!76 = distinct !DILexicalBlock(scope: !72, file: !3, line: 30, column: 34)
!77 = !DILocation(line: 31, column: 29, scope: !76)
!78 = !DILocation(line: 31, column: 9, scope: !76)
!79 = !DILocation(line: 32, column: 33, scope: !76)
!80 = !DILocation(line: 32, column: 25, scope: !76)
!81 = !DILocation(line: 32, column: 56, scope: !76)
!82 = !DILocation(line: 32, column: 48, scope: !76)
!83 = !DILocation(line: 32, column: 9, scope: !76)
!84 = !DILocation(line: 33, column: 5, scope: !76)
!85 = !DILocation(line: 30, column: 30, scope: !72)
!86 = !DILocation(line: 30, column: 5, scope: !72)
!87 = distinct !{!87, !74, !88, !89}
!88 = !DILocation(line: 33, column: 5, scope: !68)
!89 = !{!"llvm.loop.mustprogress"}
!90 = !DILocalVariable(name: "i", scope: !91, file: !3, line: 34, type: !27)
!91 = distinct !DILexicalBlock(scope: !58, file: !3, line: 34, column: 5)
!92 = !DILocation(line: 34, column: 14, scope: !91)
!93 = !DILocation(line: 34, column: 10, scope: !91)
!94 = !DILocation(line: 34, column: 21, scope: !95)
!95 = distinct !DILexicalBlock(scope: !91, file: !3, line: 34, column: 5)
!96 = !DILocation(line: 34, column: 23, scope: !95)
!97 = !DILocation(line: 34, column: 5, scope: !91)
!98 = !DILocation(line: 35, column: 30, scope: !99)
!99 = distinct !DILexicalBlock(scope: !95, file: !3, line: 34, column: 33)
!100 = !DILocation(line: 35, column: 22, scope: !99)
!101 = !DILocation(line: 35, column: 9, scope: !99)
!102 = !DILocation(line: 36, column: 21, scope: !99)
!103 = !DILocation(line: 36, column: 16, scope: !99)
!104 = !DILocation(line: 36, column: 9, scope: !99)
!105 = !DILocation(line: 37, column: 5, scope: !99)
!106 = !DILocation(line: 34, column: 29, scope: !95)
!107 = !DILocation(line: 34, column: 5, scope: !95)
!108 = distinct !{!108, !97, !109, !89}
!109 = !DILocation(line: 37, column: 5, scope: !91)
!110 = !DILocation(line: 38, column: 5, scope: !58)
!111 = distinct !DISubprogram(name: "add", scope: !3, file: !3, line: 16, type: !112, scopeLine: 16, flags: DIFlagPrototyped, spFlags: DISPFlagLocalToUnit | DISPFlagDefinition, unit: !2, retainedNodes: !61)
!112 = !DISubroutineType(types: !113)
!113 = !{!5, !5}
!114 = !DILocalVariable(name: "argument", arg: 1, scope: !111, file: !3, line: 16, type: !5)
!115 = !DILocation(line: 16, column: 24, scope: !111)
!116 = !DILocalVariable(name: "mine", scope: !111, file: !3, line: 17, type: !6)
!117 = !DILocation(line: 17, column: 10, scope: !111)
!118 = !DILocation(line: 17, column: 23, scope: !111)
!119 = !DILocation(line: 17, column: 17, scope: !111)
!120 = !DILocalVariable(name: "other", scope: !111, file: !3, line: 17, type: !6)
!121 = !DILocation(line: 17, column: 33, scope: !111)
!122 = !DILocation(line: 17, column: 45, scope: !111)
!123 = !DILocation(line: 17, column: 43, scope: !111)
!124 = !DILocation(line: 18, column: 31, scope: !111)
!125 = !DILocation(line: 18, column: 25, scope: !111)
!126 = !DILocation(line: 18, column: 5, scope: !111)
!127 = !DILocalVariable(name: "found", scope: !111, file: !3, line: 19, type: !11)
!128 = !DILocation(line: 19, column: 13, scope: !111)
!129 = !DILocation(line: 19, column: 21, scope: !111)
!130 = !DILocation(line: 20, column: 31, scope: !111)
!131 = !DILocation(line: 20, column: 25, scope: !111)
!132 = !DILocation(line: 20, column: 5, scope: !111)
!133 = !DILocation(line: 21, column: 19, scope: !111)
!134 = !DILocation(line: 21, column: 10, scope: !111)
!135 = !DILocation(line: 21, column: 5, scope: !111)
!136 = !DILocation(line: 21, column: 16, scope: !111)
!137 = !DILocation(line: 22, column: 20, scope: !111)
!138 = !DILocation(line: 22, column: 10, scope: !111)
!139 = !DILocation(line: 22, column: 5, scope: !111)
!140 = !DILocation(line: 22, column: 17, scope: !111)
!141 = !DILocation(line: 23, column: 33, scope: !111)
!142 = !DILocation(line: 23, column: 27, scope: !111)
!143 = !DILocation(line: 23, column: 5, scope: !111)
!144 = !DILocation(line: 24, column: 33, scope: !111)
!145 = !DILocation(line: 24, column: 27, scope: !111)
!146 = !DILocation(line: 24, column: 5, scope: !111)
!147 = !DILocation(line: 25, column: 5, scope: !111)
!148 = distinct !DISubprogram(name: "total", scope: !3, file: !3, line: 9, type: !149, scopeLine: 9, flags: DIFlagPrototyped, spFlags: DISPFlagLocalToUnit | DISPFlagDefinition, unit: !2, retainedNodes: !61)
!149 = !DISubroutineType(types: !150)
!150 = !{!11}
!151 = !DILocalVariable(name: "found", scope: !148, file: !3, line: 10, type: !11)
!152 = !DILocation(line: 10, column: 13, scope: !148)
!153 = !DILocalVariable(name: "i", scope: !154, file: !3, line: 11, type: !11)
!154 = distinct !DILexicalBlock(scope: !148, file: !3, line: 11, column: 5)
!155 = !DILocation(line: 11, column: 18, scope: !154)
!156 = !DILocation(line: 11, column: 10, scope: !154)
!157 = !DILocation(line: 11, column: 25, scope: !158)
!158 = distinct !DILexicalBlock(scope: !154, file: !3, line: 11, column: 5)
!159 = !DILocation(line: 11, column: 29, scope: !158)
!160 = !DILocation(line: 11, column: 27, scope: !158)
!161 = !DILocation(line: 11, column: 5, scope: !154)
!162 = !DILocation(line: 12, column: 24, scope: !158)
!163 = !DILocation(line: 12, column: 18, scope: !158)
!164 = !DILocation(line: 12, column: 15, scope: !158)
!165 = !DILocation(line: 12, column: 9, scope: !158)
!166 = !DILocation(line: 11, column: 43, scope: !158)
!167 = !DILocation(line: 11, column: 5, scope: !158)
!168 = distinct !{!168, !161, !169, !89}
!169 = !DILocation(line: 12, column: 25, scope: !154)
!170 = !DILocation(line: 13, column: 12, scope: !148)
!171 = !DILocation(line: 13, column: 5, scope: !148)
