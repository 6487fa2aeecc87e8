; ModuleID = 'pipeline.c'
source_filename = "pipeline.c"
target datalayout = "e-m:e-p270:32:32-p271:32:32-p272:64:64-i64:64-f80:128-n8:16:32:64-S128"
target triple = "x86_64-pc-linux-gnu"

%struct.slot = type { %union.pthread_mutex_t, %union.pthread_cond_t, i64, i16, i16 }
%union.pthread_mutex_t = type { %struct.__pthread_mutex_s }
%struct.__pthread_mutex_s = type { i32, i32, i32, i32, i32, i16, i16, %struct.__pthread_internal_list }
%struct.__pthread_internal_list = type { ptr, ptr }
%union.pthread_cond_t = type { %struct.__pthread_cond_s }
%struct.__pthread_cond_s = type { %union.__atomic_wide_counter, %union.__atomic_wide_counter, [2 x i32], [2 x i32], i32, i32, [2 x i32] }
%union.__atomic_wide_counter = type { i64 }

; Function Attrs: noinline nounwind optnone uwtable
define dso_local i32 @main() #0 !dbg !13 {
  %1 = alloca i32, align 4
  %2 = alloca ptr, align 8
  %3 = alloca [2 x i64], align 16
  %4 = alloca ptr, align 8
  store i32 0, ptr %1, align 4
  call void @llvm.dbg.declare(metadata ptr %2, metadata !18, metadata !DIExpression()), !dbg !91
  %5 = call noalias ptr @malloc(i64 noundef 104) #6, !dbg !92
  store ptr %5, ptr %2, align 8, !dbg !91
  call void @llvm.dbg.declare(metadata ptr %3, metadata !93, metadata !DIExpression()), !dbg !97
  call void @llvm.dbg.declare(metadata ptr %4, metadata !98, metadata !DIExpression()), !dbg !99
  store ptr null, ptr %4, align 8, !dbg !99
  %6 = load ptr, ptr %2, align 8, !dbg !100
  %7 = icmp eq ptr %6, null, !dbg !102
  br i1 %7, label %8, label %9, !dbg !103

8:                                                ; preds = %0
  store i32 1, ptr %1, align 4, !dbg !104
  br label %35, !dbg !104

9:                                                ; preds = %0
  %10 = load ptr, ptr %2, align 8, !dbg !105
  %11 = getelementptr inbounds %struct.slot, ptr %10, i32 0, i32 3, !dbg !106
  store i16 0, ptr %11, align 8, !dbg !107
  %12 = load ptr, ptr %2, align 8, !dbg !108
  %13 = getelementptr inbounds %struct.slot, ptr %12, i32 0, i32 4, !dbg !109
  store i16 0, ptr %13, align 2, !dbg !110
  %14 = load ptr, ptr %2, align 8, !dbg !111
  %15 = getelementptr inbounds %struct.slot, ptr %14, i32 0, i32 0, !dbg !112
  %16 = call i32 @pthread_mutex_init(ptr noundef %15, ptr noundef null) #7, !dbg !113
  %17 = load ptr, ptr %2, align 8, !dbg !114
  %18 = getelementptr inbounds %struct.slot, ptr %17, i32 0, i32 1, !dbg !115
  %19 = call i32 @pthread_cond_init(ptr noundef %18, ptr noundef null) #7, !dbg !116
  %20 = getelementptr inbounds [2 x i64], ptr %3, i64 0, i64 0, !dbg !117
  %21 = load ptr, ptr %2, align 8, !dbg !118
  %22 = call i32 @pthread_create(ptr noundef %20, ptr noundef null, ptr noundef @producer, ptr noundef %21) #7, !dbg !119
  %23 = getelementptr inbounds [2 x i64], ptr %3, i64 0, i64 1, !dbg !120
  %24 = load ptr, ptr %2, align 8, !dbg !121
  %25 = call i32 @pthread_create(ptr noundef %23, ptr noundef null, ptr noundef @consumer, ptr noundef %24) #7, !dbg !122
  %26 = getelementptr inbounds [2 x i64], ptr %3, i64 0, i64 0, !dbg !123
  %27 = load i64, ptr %26, align 16, !dbg !123
  %28 = call i32 @pthread_join(i64 noundef %27, ptr noundef null), !dbg !124
  %29 = getelementptr inbounds [2 x i64], ptr %3, i64 0, i64 1, !dbg !125
  %30 = load i64, ptr %29, align 8, !dbg !125
  %31 = call i32 @pthread_join(i64 noundef %30, ptr noundef %4), !dbg !126
  %32 = load ptr, ptr %4, align 8, !dbg !127
  %33 = ptrtoint ptr %32 to i64, !dbg !128
  call void @pg_out(i64 noundef %33), !dbg !129
  %34 = load ptr, ptr %2, align 8, !dbg !130
  call void @free(ptr noundef %34) #7, !dbg !131
  store i32 0, ptr %1, align 4, !dbg !132
  br label %35, !dbg !132

35:                                               ; preds = %9, %8
  %36 = load i32, ptr %1, align 4, !dbg !133
  ret i32 %36, !dbg !133
}

; Function Attrs: nocallback nofree nosync nounwind speculatable willreturn memory(none)
declare void @llvm.dbg.declare(metadata, metadata, metadata) #1

; Function Attrs: nounwind allocsize(0)
declare noalias ptr @malloc(i64 noundef) #2

; Function Attrs: nounwind
declare i32 @pthread_mutex_init(ptr noundef, ptr noundef) #3

; Function Attrs: nounwind
declare i32 @pthread_cond_init(ptr noundef, ptr noundef) #3

; Function Attrs: nounwind
declare i32 @pthread_create(ptr noundef, ptr noundef, ptr noundef, ptr noundef) #3

; Function Attrs: noinline nounwind optnone uwtable
define internal ptr @producer(ptr noundef %0) #0 !dbg !134 {
  %2 = alloca ptr, align 8
  %3 = alloca i64, align 8
  store ptr %0, ptr %2, align 8
  call void @llvm.dbg.declare(metadata ptr %2, metadata !137, metadata !DIExpression()), !dbg !138
  call void @llvm.dbg.declare(metadata ptr %3, metadata !139, metadata !DIExpression()), !dbg !141
  store i64 0, ptr %3, align 8, !dbg !141
  br label %4, !dbg !142

4:                                                ; preds = %12, %1
  %5 = load i64, ptr %3, align 8, !dbg !143
  %6 = call i64 @pg_in_len(), !dbg !145
  %7 = icmp slt i64 %5, %6, !dbg !146
  br i1 %7, label %8, label %15, !dbg !147

8:                                                ; preds = %4
  %9 = load ptr, ptr %2, align 8, !dbg !148
  %10 = load i64, ptr %3, align 8, !dbg !149
  %11 = call i64 @pg_in(i64 noundef %10), !dbg !150
  call void @hand_over(ptr noundef %9, i64 noundef %11, i16 noundef signext 0), !dbg !151
  br label %12, !dbg !151

12:                                               ; preds = %8
  %13 = load i64, ptr %3, align 8, !dbg !152
  %14 = add nsw i64 %13, 1, !dbg !152
  store i64 %14, ptr %3, align 8, !dbg !152
  br label %4, !dbg !153, !llvm.loop !154

15:                                               ; preds = %4
  %16 = load ptr, ptr %2, align 8, !dbg !157
  call void @hand_over(ptr noundef %16, i64 noundef 0, i16 noundef signext 1), !dbg !158
  ret ptr null, !dbg !159
}

; Function Attrs: noinline nounwind optnone uwtable
define internal ptr @consumer(ptr noundef %0) #0 !dbg !160 {
  %2 = alloca ptr, align 8
  %3 = alloca ptr, align 8
  %4 = alloca i64, align 8
  %5 = alloca i64, align 8
  %6 = alloca i32, align 4
  store ptr %0, ptr %2, align 8
  call void @llvm.dbg.declare(metadata ptr %2, metadata !161, metadata !DIExpression()), !dbg !162
  call void @llvm.dbg.declare(metadata ptr %3, metadata !163, metadata !DIExpression()), !dbg !164
  %7 = load ptr, ptr %2, align 8, !dbg !165
  store ptr %7, ptr %3, align 8, !dbg !164
  call void @llvm.dbg.declare(metadata ptr %4, metadata !166, metadata !DIExpression()), !dbg !167
  store i64 0, ptr %4, align 8, !dbg !167
  br label %8, !dbg !168

8:                                                ; preds = %43, %1
  %9 = load ptr, ptr %3, align 8, !dbg !169
  %10 = getelementptr inbounds %struct.slot, ptr %9, i32 0, i32 0, !dbg !173
  %11 = call i32 @pthread_mutex_lock(ptr noundef %10) #7, !dbg !174
  br label %12, !dbg !175

12:                                               ; preds = %18, %8
  %13 = load ptr, ptr %3, align 8, !dbg !176
  %14 = getelementptr inbounds %struct.slot, ptr %13, i32 0, i32 3, !dbg !177
  %15 = load i16, ptr %14, align 8, !dbg !177
  %16 = icmp ne i16 %15, 0, !dbg !178
  %17 = xor i1 %16, true, !dbg !178
  br i1 %17, label %18, label %24, !dbg !175

18:                                               ; preds = %12
  %19 = load ptr, ptr %3, align 8, !dbg !179
  %20 = getelementptr inbounds %struct.slot, ptr %19, i32 0, i32 1, !dbg !180
  %21 = load ptr, ptr %3, align 8, !dbg !181
  %22 = getelementptr inbounds %struct.slot, ptr %21, i32 0, i32 0, !dbg !182
  %23 = call i32 @pthread_cond_wait(ptr noundef %20, ptr noundef %22), !dbg !183
  br label %12, !dbg !175, !llvm.loop !184

24:                                               ; preds = %12
  call void @llvm.dbg.declare(metadata ptr %5, metadata !186, metadata !DIExpression()), !dbg !187
  %25 = load ptr, ptr %3, align 8, !dbg !188
  %26 = getelementptr inbounds %struct.slot, ptr %25, i32 0, i32 2, !dbg !189
  %27 = load i64, ptr %26, align 8, !dbg !189
  store i64 %27, ptr %5, align 8, !dbg !187
  call void @llvm.dbg.declare(metadata ptr %6, metadata !190, metadata !DIExpression()), !dbg !191
  %28 = load ptr, ptr %3, align 8, !dbg !192
  %29 = getelementptr inbounds %struct.slot, ptr %28, i32 0, i32 4, !dbg !193
  %30 = load i16, ptr %29, align 2, !dbg !193
  %31 = sext i16 %30 to i32, !dbg !192
  store i32 %31, ptr %6, align 4, !dbg !191
  %32 = load ptr, ptr %3, align 8, !dbg !194
  %33 = getelementptr inbounds %struct.slot, ptr %32, i32 0, i32 3, !dbg !195
  store i16 0, ptr %33, align 8, !dbg !196
  %34 = load ptr, ptr %3, align 8, !dbg !197
  %35 = getelementptr inbounds %struct.slot, ptr %34, i32 0, i32 1, !dbg !198
  %36 = call i32 @pthread_cond_broadcast(ptr noundef %35) #7, !dbg !199
  %37 = load ptr, ptr %3, align 8, !dbg !200
  %38 = getelementptr inbounds %struct.slot, ptr %37, i32 0, i32 0, !dbg !201
  %39 = call i32 @pthread_mutex_unlock(ptr noundef %38) #7, !dbg !202
  %40 = load i32, ptr %6, align 4, !dbg !203
  %41 = icmp ne i32 %40, 0, !dbg !203
  br i1 %41, label %42, label %43, !dbg !205

42:                                               ; preds = %24
  br label %49, !dbg !206

43:                                               ; preds = %24
  %44 = load i64, ptr %5, align 8, !dbg !207
  %45 = load i64, ptr %5, align 8, !dbg !208
  %46 = mul nsw i64 %44, %45, !dbg !209
  call void @pg_out(i64 noundef %46), !dbg !210
  %47 = load i64, ptr %4, align 8, !dbg !211
  %48 = add nsw i64 %47, 1, !dbg !211
  store i64 %48, ptr %4, align 8, !dbg !211
  br label %8, !dbg !212, !llvm.loop !213

49:                                               ; preds = %42
  %50 = load i64, ptr %4, align 8, !dbg !216
  %51 = inttoptr i64 %50 to ptr, !dbg !217
  call void @pthread_exit(ptr noundef %51) #8, !dbg !218
  unreachable, !dbg !218
}

declare i32 @pthread_join(i64 noundef, ptr noundef) #4

declare void @pg_out(i64 noundef) #4

; Function Attrs: nounwind
declare void @free(ptr noundef) #3

declare i64 @pg_in_len() #4

; Function Attrs: noinline nounwind optnone uwtable
define internal void @hand_over(ptr noundef %0, i64 noundef %1, i16 noundef signext %2) #0 !dbg !219 {
  %4 = alloca ptr, align 8
  %5 = alloca i64, align 8
  %6 = alloca i16, align 2
  store ptr %0, ptr %4, align 8
  call void @llvm.dbg.declare(metadata ptr %4, metadata !222, metadata !DIExpression()), !dbg !223
  store i64 %1, ptr %5, align 8
  call void @llvm.dbg.declare(metadata ptr %5, metadata !224, metadata !DIExpression()), !dbg !225
  store i16 %2, ptr %6, align 2
  call void @llvm.dbg.declare(metadata ptr %6, metadata !226, metadata !DIExpression()), !dbg !227
  %7 = load ptr, ptr %4, align 8, !dbg !228
  %8 = getelementptr inbounds %struct.slot, ptr %7, i32 0, i32 0, !dbg !229
  %9 = call i32 @pthread_mutex_lock(ptr noundef %8) #7, !dbg !230
  br label %10, !dbg !231

10:                                               ; preds = %15, %3
  %11 = load ptr, ptr %4, align 8, !dbg !232
  %12 = getelementptr inbounds %struct.slot, ptr %11, i32 0, i32 3, !dbg !233
  %13 = load i16, ptr %12, align 8, !dbg !233
  %14 = icmp ne i16 %13, 0, !dbg !231
  br i1 %14, label %15, label %21, !dbg !231

15:                                               ; preds = %10
  %16 = load ptr, ptr %4, align 8, !dbg !234
  %17 = getelementptr inbounds %struct.slot, ptr %16, i32 0, i32 1, !dbg !235
  %18 = load ptr, ptr %4, align 8, !dbg !236
  %19 = getelementptr inbounds %struct.slot, ptr %18, i32 0, i32 0, !dbg !237
  %20 = call i32 @pthread_cond_wait(ptr noundef %17, ptr noundef %19), !dbg !238
  br label %10, !dbg !231, !llvm.loop !239

21:                                               ; preds = %10
  %22 = load i64, ptr %5, align 8, !dbg !241
  %23 = load ptr, ptr %4, align 8, !dbg !242
  %24 = getelementptr inbounds %struct.slot, ptr %23, i32 0, i32 2, !dbg !243
  store i64 %22, ptr %24, align 8, !dbg !244
  %25 = load ptr, ptr %4, align 8, !dbg !245
  %26 = getelementptr inbounds %struct.slot, ptr %25, i32 0, i32 3, !dbg !246
  store i16 1, ptr %26, align 8, !dbg !247
  %27 = load i16, ptr %6, align 2, !dbg !248
  %28 = load ptr, ptr %4, align 8, !dbg !249
  %29 = getelementptr inbounds %struct.slot, ptr %28, i32 0, i32 4, !dbg !250
  store i16 %27, ptr %29, align 2, !dbg !251
  %30 = load ptr, ptr %4, align 8, !dbg !252
  %31 = getelementptr inbounds %struct.slot, ptr %30, i32 0, i32 1, !dbg !253
  %32 = call i32 @pthread_cond_broadcast(ptr noundef %31) #7, !dbg !254
  %33 = load ptr, ptr %4, align 8, !dbg !255
  %34 = getelementptr inbounds %struct.slot, ptr %33, i32 0, i32 0, !dbg !256
  %35 = call i32 @pthread_mutex_unlock(ptr noundef %34) #7, !dbg !257
  ret void, !dbg !258
}

declare i64 @pg_in(i64 noundef) #4

; Function Attrs: nounwind
declare i32 @pthread_mutex_lock(ptr noundef) #3

declare i32 @pthread_cond_wait(ptr noundef, ptr noundef) #4

; Function Attrs: nounwind
declare i32 @pthread_cond_broadcast(ptr noundef) #3

; Function Attrs: nounwind
declare i32 @pthread_mutex_unlock(ptr noundef) #3

; Function Attrs: noreturn
declare void @pthread_exit(ptr noundef) #5

attributes #0 = { noinline nounwind optnone uwtable "frame-pointer"="all" "min-legal-vector-width"="0" "no-trapping-math"="true" "stack-protector-buffer-size"="8" "target-cpu"="x86-64" "target-features"="+cx8,+fxsr,+mmx,+sse,+sse2,+x87" "tune-cpu"="generic" }
attributes #1 = { nocallback nofree nosync nounwind speculatable willreturn memory(none) }
attributes #2 = { nounwind allocsize(0) "frame-pointer"="all" "no-trapping-math"="true" "stack-protector-buffer-size"="8" "target-cpu"="x86-64" "target-features"="+cx8,+fxsr,+mmx,+sse,+sse2,+x87" "tune-cpu"="generic" }
attributes #3 = { nounwind "frame-pointer"="all" "no-trapping-math"="true" "stack-protector-buffer-size"="8" "target-cpu"="x86-64" "target-features"="+cx8,+fxsr,+mmx,+sse,+sse2,+x87" "tune-cpu"="generic" }
attributes #4 = { "frame-pointer"="all" "no-trapping-math"="true" "stack-protector-buffer-size"="8" "target-cpu"="x86-64" "target-features"="+cx8,+fxsr,+mmx,+sse,+sse2,+x87" "tune-cpu"="generic" }
attributes #5 = { noreturn "frame-pointer"="all" "no-trapping-math"="true" "stack-protector-buffer-size"="8" "target-cpu"="x86-64" "target-features"="+cx8,+fxsr,+mmx,+sse,+sse2,+x87" "tune-cpu"="generic" }
attributes #6 = { nounwind allocsize(0) }
attributes #7 = { nounwind }
attributes #8 = { noreturn }

!llvm.dbg.cu = !{!0}
!llvm.module.flags = !{!5, !6, !7, !8, !9, !10, !11}
!llvm.ident = !{!12}

!0 = distinct !DICompileUnit(language: DW_LANG_C11, file: !1, producer: "Debian clang version 16.0.6 (15~deb12u1)", isOptimized: false, runtimeVersion: 0, emissionKind: FullDebug, retainedTypes: !2, splitDebugInlining: false, nameTableKind: None)
!1 = !DIFile(filename: "pipeline.c", directory: ".", checksumkind: CSK_MD5, checksum: "3ccccb2133c20ff887a141f956d79ecc")
!2 = !{!3, !4}
!3 = !DIDerivedType(tag: DW_TAG_pointer_type, baseType: null, size: 64)
!4 = !DIBasicType(name: "long", size: 64, encoding: DW_ATE_signed)
!5 = !{i32 7, !"Dwarf Version", i32 5}
!6 = !{i32 2, !"Debug Info Version", i32 3}
!7 = !{i32 1, !"wchar_size", i32 4}
!8 = !{i32 8, !"PIC Level", i32 2}
!9 = !{i32 7, !"PIE Level", i32 2}
!10 = !{i32 7, !"uwtable", i32 2}
!11 = !{i32 7, !"frame-pointer", i32 2}
!12 = !{!"Debian clang version 16.0.6 (15~deb12u1)"}
!13 = distinct !DISubprogram(name: "main", scope: !1, file: !1, line: 56, type: !14, scopeLine: 56, flags: DIFlagPrototyped, spFlags: DISPFlagDefinition, unit: !0, retainedNodes: !17)
!14 = !DISubroutineType(types: !15)
!15 = !{!16}
!16 = !DIBasicType(name: "int", size: 32, encoding: DW_ATE_signed)
!17 = !{}
!18 = !DILocalVariable(name: "s", scope: !13, file: !1, line: 57, type: !19)
!19 = !DIDerivedType(tag: DW_TAG_pointer_type, baseType: !20, size: 64)
!20 = distinct !DICompositeType(tag: DW_TAG_structure_type, name: "slot", file: !1, line: 10, size: 832, elements: !21)
!21 = !{!22, !54, !88, !89, !90}
!22 = !DIDerivedType(tag: DW_TAG_member, name: "lock", scope: !20, file: !1, line: 11, baseType: !23, size: 320)
!23 = !DIDerivedType(tag: DW_TAG_typedef, name: "pthread_mutex_t", file: !24, line: 72, baseType: !25)
!24 = !DIFile(filename: "/usr/include/x86_64-linux-gnu/bits/pthreadtypes.h", directory: "", checksumkind: CSK_MD5, checksum: "735e3bf264ff9d8f5d95898b1692fbdb")
!25 = distinct !DICompositeType(tag: DW_TAG_union_type, file: !24, line: 67, size: 320, elements: !26)
!26 = !{!27, !48, !53}
!27 = !DIDerivedType(tag: DW_TAG_member, name: "__data", scope: !25, file: !24, line: 69, baseType: !28, size: 320)
!28 = distinct !DICompositeType(tag: DW_TAG_structure_type, name: "__pthread_mutex_s", file: !29, line: 22, size: 320, elements: !30)
!29 = !DIFile(filename: "/usr/include/x86_64-linux-gnu/bits/struct_mutex.h", directory: "", checksumkind: CSK_MD5, checksum: "584baedd80e6041b81caae7f496091c0")
!30 = !{!31, !32, !34, !35, !36, !37, !39, !40}
!31 = !DIDerivedType(tag: DW_TAG_member, name: "__lock", scope: !28, file: !29, line: 24, baseType: !16, size: 32)
!32 = !DIDerivedType(tag: DW_TAG_member, name: "__count", scope: !28, file: !29, line: 25, baseType: !33, size: 32, offset: 32)
!33 = !DIBasicType(name: "unsigned int", size: 32, encoding: DW_ATE_unsigned)
!34 = !DIDerivedType(tag: DW_TAG_member, name: "__owner", scope: !28, file: !29, line: 26, baseType: !16, size: 32, offset: 64)
!35 = !DIDerivedType(tag: DW_TAG_member, name: "__nusers", scope: !28, file: !29, line: 28, baseType: !33, size: 32, offset: 96)
!36 = !DIDerivedType(tag: DW_TAG_member, name: "__kind", scope: !28, file: !29, line: 32, baseType: !16, size: 32, offset: 128)
!37 = !DIDerivedType(tag: DW_TAG_member, name: "__spins", scope: !28, file: !29, line: 34, baseType: !38, size: 16, offset: 160)
!38 = !DIBasicType(name: "short", size: 16, encoding: DW_ATE_signed)
!39 = !DIDerivedType(tag: DW_TAG_member, name: "__elision", scope: !28, file: !29, line: 35, baseType: !38, size: 16, offset: 176)
!40 = !DIDerivedType(tag: DW_TAG_member, name: "__list", scope: !28, file: !29, line: 36, baseType: !41, size: 128, offset: 192)
!41 = !DIDerivedType(tag: DW_TAG_typedef, name: "__pthread_list_t", file: !42, line: 55, baseType: !43)
!42 = !DIFile(filename: "/usr/include/x86_64-linux-gnu/bits/thread-shared-types.h", directory: "", checksumkind: CSK_MD5, checksum: "04c81e86d34dad9c99ad006d32e47a0d")
!43 = distinct !DICompositeType(tag: DW_TAG_structure_type, name: "__pthread_internal_list", file: !42, line: 51, size: 128, elements: !44)
!44 = !{!45, !47}
!45 = !DIDerivedType(tag: DW_TAG_member, name: "__prev", scope: !43, file: !42, line: 53, baseType: !46, size: 64)
!46 = !DIDerivedType(tag: DW_TAG_pointer_type, baseType: !43, size: 64)
!47 = !DIDerivedType(tag: DW_TAG_member, name: "__next", scope: !43, file: !42, line: 54, baseType: !46, size: 64, offset: 64)
!48 = !DIDerivedType(tag: DW_TAG_member, name: "__size", scope: !25, file: !24, line: 70, baseType: !49, size: 320)
!49 = !DICompositeType(tag: DW_TAG_array_type, baseType: !50, size: 320, elements: !51)
!50 = !DIBasicType(name: "char", size: 8, encoding: DW_ATE_signed_char)
!51 = !{!52}
!52 = !DISubrange(count: 40)
!53 = !DIDerivedType(tag: DW_TAG_member, name: "__align", scope: !25, file: !24, line: 71, baseType: !4, size: 64)
!54 = !DIDerivedType(tag: DW_TAG_member, name: "changed", scope: !20, file: !1, line: 12, baseType: !55, size: 384, offset: 320)
!55 = !DIDerivedType(tag: DW_TAG_typedef, name: "pthread_cond_t", file: !24, line: 80, baseType: !56)
!56 = distinct !DICompositeType(tag: DW_TAG_union_type, file: !24, line: 75, size: 384, elements: !57)
!57 = !{!58, !82, !86}
!58 = !DIDerivedType(tag: DW_TAG_member, name: "__data", scope: !56, file: !24, line: 77, baseType: !59, size: 384)
!59 = distinct !DICompositeType(tag: DW_TAG_structure_type, name: "__pthread_cond_s", file: !42, line: 94, size: 384, elements: !60)
!60 = !{!61, !73, !74, !78, !79, !80, !81}
!61 = !DIDerivedType(tag: DW_TAG_member, name: "__wseq", scope: !59, file: !42, line: 96, baseType: !62, size: 64)
!62 = !DIDerivedType(tag: DW_TAG_typedef, name: "__atomic_wide_counter", file: !63, line: 33, baseType: !64)
!63 = !DIFile(filename: "/usr/include/x86_64-linux-gnu/bits/atomic_wide_counter.h", directory: "", checksumkind: CSK_MD5, checksum: "2708e6e61e266abad2d765ccef838dbe")
!64 = distinct !DICompositeType(tag: DW_TAG_union_type, file: !63, line: 25, size: 64, elements: !65)
!65 = !{!66, !68}
!66 = !DIDerivedType(tag: DW_TAG_member, name: "__value64", scope: !64, file: !63, line: 27, baseType: !67, size: 64)
!67 = !DIBasicType(name: "unsigned long long", size: 64, encoding: DW_ATE_unsigned)
!68 = !DIDerivedType(tag: DW_TAG_member, name: "__value32", scope: !64, file: !63, line: 32, baseType: !69, size: 64)
!69 = distinct !DICompositeType(tag: DW_TAG_structure_type, scope: !64, file: !63, line: 28, size: 64, elements: !70)
!70 = !{!71, !72}
!71 = !DIDerivedType(tag: DW_TAG_member, name: "__low", scope: !69, file: !63, line: 30, baseType: !33, size: 32)
!72 = !DIDerivedType(tag: DW_TAG_member, name: "__high", scope: !69, file: !63, line: 31, baseType: !33, size: 32, offset: 32)
!73 = !DIDerivedType(tag: DW_TAG_member, name: "__g1_start", scope: !59, file: !42, line: 97, baseType: !62, size: 64, offset: 64)
!74 = !DIDerivedType(tag: DW_TAG_member, name: "__g_refs", scope: !59, file: !42, line: 98, baseType: !75, size: 64, offset: 128)
!75 = !DICompositeType(tag: DW_TAG_array_type, baseType: !33, size: 64, elements: !76)
!76 = !{!77}
!77 = !DISubrange(count: 2)
!78 = !DIDerivedType(tag: DW_TAG_member, name: "__g_size", scope: !59, file: !42, line: 99, baseType: !75, size: 64, offset: 192)
!79 = !DIDerivedType(tag: DW_TAG_member, name: "__g1_orig_size", scope: !59, file: !42, line: 100, baseType: !33, size: 32, offset: 256)
!80 = !DIDerivedType(tag: DW_TAG_member, name: "__wrefs", scope: !59, file: !42, line: 101, baseType: !33, size: 32, offset: 288)
!81 = !DIDerivedType(tag: DW_TAG_member, name: "__g_signals", scope: !59, file: !42, line: 102, baseType: !75, size: 64, offset: 320)
!82 = !DIDerivedType(tag: DW_TAG_member, name: "__size", scope: !56, file: !24, line: 78, baseType: !83, size: 384)
!83 = !DICompositeType(tag: DW_TAG_array_type, baseType: !50, size: 384, elements: !84)
!84 = !{!85}
!85 = !DISubrange(count: 48)
!86 = !DIDerivedType(tag: DW_TAG_member, name: "__align", scope: !56, file: !24, line: 79, baseType: !87, size: 64)
!87 = !DIBasicType(name: "long long", size: 64, encoding: DW_ATE_signed)
!88 = !DIDerivedType(tag: DW_TAG_member, name: "item", scope: !20, file: !1, line: 13, baseType: !4, size: 64, offset: 704)
!89 = !DIDerivedType(tag: DW_TAG_member, name: "is_full", scope: !20, file: !1, line: 14, baseType: !38, size: 16, offset: 768)
!90 = !DIDerivedType(tag: DW_TAG_member, name: "is_done", scope: !20, file: !1, line: 15, baseType: !38, size: 16, offset: 784)
!91 = !DILocation(line: 57, column: 18, scope: !13)
!92 = !DILocation(line: 57, column: 22, scope: !13)
!93 = !DILocalVariable(name: "threads", scope: !13, file: !1, line: 58, type: !94)
!94 = !DICompositeType(tag: DW_TAG_array_type, baseType: !95, size: 128, elements: !76)
!95 = !DIDerivedType(tag: DW_TAG_typedef, name: "pthread_t", file: !24, line: 27, baseType: !96)
!96 = !DIBasicType(name: "unsigned long", size: 64, encoding: DW_ATE_unsigned)
!97 = !DILocation(line: 58, column: 15, scope: !13)
!98 = !DILocalVariable(name: "count", scope: !13, file: !1, line: 59, type: !3)
!99 = !DILocation(line: 59, column: 11, scope: !13)
!100 = !DILocation(line: 60, column: 9, scope: !101)
!101 = distinct !DILexicalBlock(scope: !13, file: !1, line: 60, column: 9)
!102 = !DILocation(line: 60, column: 11, scope: !101)
!103 = !DILocation(line: 60, column: 9, scope: !13)
!104 = !DILocation(line: 61, column: 9, scope: !101)
!105 = !DILocation(line: 62, column: 5, scope: !13)
!106 = !DILocation(line: 62, column: 8, scope: !13)
!107 = !DILocation(line: 62, column: 16, scope: !13)
!108 = !DILocation(line: 63, column: 5, scope: !13)
!109 = !DILocation(line: 63, column: 8, scope: !13)
!110 = !DILocation(line: 63, column: 16, scope: !13)
!111 = !DILocation(line: 64, column: 25, scope: !13)
!112 = !DILocation(line: 64, column: 28, scope: !13)
!113 = !DILocation(line: 64, column: 5, scope: !13)
!114 = !DILocation(line: 65, column: 24, scope: !13)
!115 = !DILocation(line: 65, column: 27, scope: !13)
!116 = !DILocation(line: 65, column: 5, scope: !13)
!117 = !DILocation(line: 66, column: 21, scope: !13)
!118 = !DILocation(line: 66, column: 49, scope: !13)
!119 = !DILocation(line: 66, column: 5, scope: !13)
!120 = !DILocation(line: 67, column: 21, scope: !13)
!121 = !DILocation(line: 67, column: 49, scope: !13)
!122 = !DILocation(line: 67, column: 5, scope: !13)
!123 = !DILocation(line: 68, column: 18, scope: !13)
!124 = !DILocation(line: 68, column: 5, scope: !13)
!125 = !DILocation(line: 69, column: 18, scope: !13)
!126 = !DILocation(line: 69, column: 5, scope: !13)
!127 = !DILocation(line: 70, column: 18, scope: !13)
!128 = !DILocation(line: 70, column: 12, scope: !13)
!129 = !DILocation(line: 70, column: 5, scope: !13)
!130 = !DILocation(line: 71, column: 10, scope: !13)
!131 = !DILocation(line: 71, column: 5, scope: !13)
!132 = !DILocation(line: 72, column: 5, scope: !13)
!133 = !DILocation(line: 73, column: 1, scope: !13)
!134 = distinct !DISubprogram(name: "producer", scope: !1, file: !1, line: 29, type: !135, scopeLine: 29, flags: DIFlagPrototyped, spFlags: DISPFlagLocalToUnit | DISPFlagDefinition, unit: !0, retainedNodes: !17)
!135 = !DISubroutineType(types: !136)
!136 = !{!3, !3}
!137 = !DILocalVariable(name: "slot", arg: 1, scope: !134, file: !1, line: 29, type: !3)
!138 = !DILocation(line: 29, column: 29, scope: !134)
!139 = !DILocalVariable(name: "i", scope: !140, file: !1, line: 30, type: !4)
!140 = distinct !DILexicalBlock(scope: !134, file: !1, line: 30, column: 5)
!141 = !DILocation(line: 30, column: 15, scope: !140)
!142 = !DILocation(line: 30, column: 10, scope: !140)
!143 = !DILocation(line: 30, column: 22, scope: !144)
!144 = distinct !DILexicalBlock(scope: !140, file: !1, line: 30, column: 5)
!145 = !DILocation(line: 30, column: 26, scope: !144)
!146 = !DILocation(line: 30, column: 24, scope: !144)
!147 = !DILocation(line: 30, column: 5, scope: !140)
!148 = !DILocation(line: 31, column: 19, scope: !144)
!149 = !DILocation(line: 31, column: 31, scope: !144)
!150 = !DILocation(line: 31, column: 25, scope: !144)
!151 = !DILocation(line: 31, column: 9, scope: !144)
!152 = !DILocation(line: 30, column: 40, scope: !144)
!153 = !DILocation(line: 30, column: 5, scope: !144)
!154 = distinct !{!154, !147, !155, !156}
!155 = !DILocation(line: 31, column: 36, scope: !140)
!156 = !{!"llvm.loop.mustprogress"}
!157 = !DILocation(line: 32, column: 15, scope: !134)
!158 = !DILocation(line: 32, column: 5, scope: !134)
!159 = !DILocation(line: 33, column: 5, scope: !134)
!160 = distinct !DISubprogram(name: "consumer", scope: !1, file: !1, line: 36, type: !135, scopeLine: 36, flags: DIFlagPrototyped, spFlags: DISPFlagLocalToUnit | DISPFlagDefinition, unit: !0, retainedNodes: !17)
!161 = !DILocalVariable(name: "slot", arg: 1, scope: !160, file: !1, line: 36, type: !3)
!162 = !DILocation(line: 36, column: 29, scope: !160)
!163 = !DILocalVariable(name: "s", scope: !160, file: !1, line: 37, type: !19)
!164 = !DILocation(line: 37, column: 18, scope: !160)
!165 = !DILocation(line: 37, column: 22, scope: !160)
!166 = !DILocalVariable(name: "count", scope: !160, file: !1, line: 38, type: !4)
!167 = !DILocation(line: 38, column: 10, scope: !160)
!168 = !DILocation(line: 39, column: 5, scope: !160)
!169 = !DILocation(line: 40, column: 29, scope: !170)
!170 = distinct !DILexicalBlock(scope: !171, file: !1, line: 39, column: 14)
!171 = distinct !DILexicalBlock(scope: !172, file: !1, line: 39, column: 5)
!172 = distinct !DILexicalBlock(scope: !160, file: !1, line: 39, column: 5)
!173 = !DILocation(line: 40, column: 32, scope: !170)
!174 = !DILocation(line: 40, column: 9, scope: !170)
!175 = !DILocation(line: 41, column: 9, scope: !170)
!176 = !DILocation(line: 41, column: 17, scope: !170)
!177 = !DILocation(line: 41, column: 20, scope: !170)
!178 = !DILocation(line: 41, column: 16, scope: !170)
!179 = !DILocation(line: 42, column: 32, scope: !170)
!180 = !DILocation(line: 42, column: 35, scope: !170)
!181 = !DILocation(line: 42, column: 45, scope: !170)
!182 = !DILocation(line: 42, column: 48, scope: !170)
!183 = !DILocation(line: 42, column: 13, scope: !170)
!184 = distinct !{!184, !175, !185, !156}
!185 = !DILocation(line: 42, column: 52, scope: !170)
!186 = !DILocalVariable(name: "v", scope: !170, file: !1, line: 43, type: !4)
!187 = !DILocation(line: 43, column: 14, scope: !170)
!188 = !DILocation(line: 43, column: 18, scope: !170)
!189 = !DILocation(line: 43, column: 21, scope: !170)
!190 = !DILocalVariable(name: "is_done", scope: !170, file: !1, line: 44, type: !16)
!191 = !DILocation(line: 44, column: 13, scope: !170)
!192 = !DILocation(line: 44, column: 23, scope: !170)
!193 = !DILocation(line: 44, column: 26, scope: !170)
!194 = !DILocation(line: 45, column: 9, scope: !170)
!195 = !DILocation(line: 45, column: 12, scope: !170)
!196 = !DILocation(line: 45, column: 20, scope: !170)
!197 = !DILocation(line: 46, column: 33, scope: !170)
!198 = !DILocation(line: 46, column: 36, scope: !170)
!199 = !DILocation(line: 46, column: 9, scope: !170)
!200 = !DILocation(line: 47, column: 31, scope: !170)
!201 = !DILocation(line: 47, column: 34, scope: !170)
!202 = !DILocation(line: 47, column: 9, scope: !170)
!203 = !DILocation(line: 48, column: 13, scope: !204)
!204 = distinct !DILexicalBlock(scope: !170, file: !1, line: 48, column: 13)
!205 = !DILocation(line: 48, column: 13, scope: !170)
!206 = !DILocation(line: 49, column: 13, scope: !204)
!207 = !DILocation(line: 50, column: 16, scope: !170)
!208 = !DILocation(line: 50, column: 20, scope: !170)
!209 = !DILocation(line: 50, column: 18, scope: !170)
!210 = !DILocation(line: 50, column: 9, scope: !170)
!211 = !DILocation(line: 51, column: 14, scope: !170)
!212 = !DILocation(line: 39, column: 5, scope: !171)
!213 = distinct !{!213, !214, !215}
!214 = !DILocation(line: 39, column: 5, scope: !172)
!215 = !DILocation(line: 52, column: 5, scope: !172)
!216 = !DILocation(line: 53, column: 26, scope: !160)
!217 = !DILocation(line: 53, column: 18, scope: !160)
!218 = !DILocation(line: 53, column: 5, scope: !160)
!219 = distinct !DISubprogram(name: "hand_over", scope: !1, file: !1, line: 18, type: !220, scopeLine: 18, flags: DIFlagPrototyped, spFlags: DISPFlagLocalToUnit | DISPFlagDefinition, unit: !0, retainedNodes: !17)
!220 = !DISubroutineType(types: !221)
!221 = !{null, !19, !4, !38}
!222 = !DILocalVariable(name: "s", arg: 1, scope: !219, file: !1, line: 18, type: !19)
!223 = !DILocation(line: 18, column: 36, scope: !219)
!224 = !DILocalVariable(name: "v", arg: 2, scope: !219, file: !1, line: 18, type: !4)
!225 = !DILocation(line: 18, column: 44, scope: !219)
!226 = !DILocalVariable(name: "is_done", arg: 3, scope: !219, file: !1, line: 18, type: !38)
!227 = !DILocation(line: 18, column: 53, scope: !219)
!228 = !DILocation(line: 19, column: 25, scope: !219)
!229 = !DILocation(line: 19, column: 28, scope: !219)
!230 = !DILocation(line: 19, column: 5, scope: !219)
!231 = !DILocation(line: 20, column: 5, scope: !219)
!232 = !DILocation(line: 20, column: 12, scope: !219)
!233 = !DILocation(line: 20, column: 15, scope: !219)
!234 = !DILocation(line: 21, column: 28, scope: !219)
!235 = !DILocation(line: 21, column: 31, scope: !219)
!236 = !DILocation(line: 21, column: 41, scope: !219)
!237 = !DILocation(line: 21, column: 44, scope: !219)
!238 = !DILocation(line: 21, column: 9, scope: !219)
!239 = distinct !{!239, !231, !240, !156}
!240 = !DILocation(line: 21, column: 48, scope: !219)
!241 = !DILocation(line: 22, column: 15, scope: !219)
!242 = !DILocation(line: 22, column: 5, scope: !219)
!243 = !DILocation(line: 22, column: 8, scope: !219)
!244 = !DILocation(line: 22, column: 13, scope: !219)
!245 = !DILocation(line: 23, column: 5, scope: !219)
!246 = !DILocation(line: 23, column: 8, scope: !219)
!247 = !DILocation(line: 23, column: 16, scope: !219)
!248 = !DILocation(line: 24, column: 18, scope: !219)
!249 = !DILocation(line: 24, column: 5, scope: !219)
!250 = !DILocation(line: 24, column: 8, scope: !219)
!251 = !DILocation(line: 24, column: 16, scope: !219)
!252 = !DILocation(line: 25, column: 29, scope: !219)
!253 = !DILocation(line: 25, column: 32, scope: !219)
!254 = !DILocation(line: 25, column: 5, scope: !219)
!255 = !DILocation(line: 26, column: 27, scope: !219)
!256 = !DILocation(line: 26, column: 30, scope: !219)
!257 = !DILocation(line: 26, column: 5, scope: !219)
!258 = !DILocation(line: 27, column: 1, scope: !219)
