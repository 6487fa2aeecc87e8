; ModuleID = 'queue.c'
source_filename = "queue.c"
target datalayout = "e-m:e-p270:32:32-p271:32:32-p272:64:64-i64:64-f80:128-n8:16:32:64-S128"
target triple = "x86_64-pc-linux-gnu"

%struct.queue = type { %union.pthread_mutex_t, %union.pthread_cond_t, %union.pthread_cond_t, [4 x i64], i32, i32, i8 }
%union.pthread_mutex_t = type { %struct.__pthread_mutex_s }
%struct.__pthread_mutex_s = type { i32, i32, i32, i32, i32, i16, i16, %struct.__pthread_internal_list }
%struct.__pthread_internal_list = type { ptr, ptr }
%union.pthread_cond_t = type { %struct.__pthread_cond_s }
%struct.__pthread_cond_s = type { %union.__atomic_wide_counter, %union.__atomic_wide_counter, [2 x i32], [2 x i32], i32, i32, [2 x i32] }
%union.__atomic_wide_counter = type { i64 }

@queue = internal global %struct.queue zeroinitializer, align 8, !dbg !0
@sums = internal global [2 x i64] zeroinitializer, align 16, !dbg !9

; Function Attrs: noinline nounwind optnone uwtable
define dso_local i32 @main() #0 !dbg !97 {
  %1 = alloca i32, align 4
  %2 = alloca [2 x i64], align 16
  %3 = alloca i32, align 4
  %4 = alloca i64, align 8
  %5 = alloca i32, align 4
  store i32 0, ptr %1, align 4
  call void @llvm.dbg.declare(metadata ptr %2, metadata !101, metadata !DIExpression()), !dbg !105
  %6 = call i32 @pthread_mutex_init(ptr noundef @queue, ptr noundef null) #4, !dbg !106
  %7 = call i32 @pthread_cond_init(ptr noundef getelementptr inbounds (%struct.queue, ptr @queue, i32 0, i32 1), ptr noundef null) #4, !dbg !107
  %8 = call i32 @pthread_cond_init(ptr noundef getelementptr inbounds (%struct.queue, ptr @queue, i32 0, i32 2), ptr noundef null) #4, !dbg !108
  call void @llvm.dbg.declare(metadata ptr %3, metadata !109, metadata !DIExpression()), !dbg !111
  store i32 0, ptr %3, align 4, !dbg !111
  br label %9, !dbg !112

9:                                                ; preds = %20, %0
  %10 = load i32, ptr %3, align 4, !dbg !113
  %11 = icmp slt i32 %10, 2, !dbg !115
  br i1 %11, label %12, label %23, !dbg !116

12:                                               ; preds = %9
  %13 = load i32, ptr %3, align 4, !dbg !117
  %14 = sext i32 %13 to i64, !dbg !118
  %15 = getelementptr inbounds [2 x i64], ptr %2, i64 0, i64 %14, !dbg !118
  %16 = load i32, ptr %3, align 4, !dbg !119
  %17 = sext i32 %16 to i64, !dbg !120
  %18 = getelementptr inbounds [2 x i64], ptr @sums, i64 0, i64 %17, !dbg !120
  %19 = call i32 @pthread_create(ptr noundef %15, ptr noundef null, ptr noundef @worker, ptr noundef %18) #4, !dbg !121
  br label %20, !dbg !121

20:                                               ; preds = %12
  %21 = load i32, ptr %3, align 4, !dbg !122
  %22 = add nsw i32 %21, 1, !dbg !122
  store i32 %22, ptr %3, align 4, !dbg !122
  br label %9, !dbg !123, !llvm.loop !124

23:                                               ; preds = %9
  call void @llvm.dbg.declare(metadata ptr %4, metadata !127, metadata !DIExpression()), !dbg !129
  store i64 0, ptr %4, align 8, !dbg !129
  br label %24, !dbg !130

24:                                               ; preds = %31, %23
  %25 = load i64, ptr %4, align 8, !dbg !131
  %26 = call i64 @pg_in_len(), !dbg !133
  %27 = icmp slt i64 %25, %26, !dbg !134
  br i1 %27, label %28, label %34, !dbg !135

28:                                               ; preds = %24
  %29 = load i64, ptr %4, align 8, !dbg !136
  %30 = call i64 @pg_in(i64 noundef %29), !dbg !137
  call void @put(ptr noundef @queue, i64 noundef %30), !dbg !138
  br label %31, !dbg !138

31:                                               ; preds = %28
  %32 = load i64, ptr %4, align 8, !dbg !139
  %33 = add nsw i64 %32, 1, !dbg !139
  store i64 %33, ptr %4, align 8, !dbg !139
  br label %24, !dbg !140, !llvm.loop !141

34:                                               ; preds = %24
  call void @close_queue(ptr noundef @queue), !dbg !143
  call void @llvm.dbg.declare(metadata ptr %5, metadata !144, metadata !DIExpression()), !dbg !146
  store i32 0, ptr %5, align 4, !dbg !146
  br label %35, !dbg !147

35:                                               ; preds = %44, %34
  %36 = load i32, ptr %5, align 4, !dbg !148
  %37 = icmp slt i32 %36, 2, !dbg !150
  br i1 %37, label %38, label %47, !dbg !151

38:                                               ; preds = %35
  %39 = load i32, ptr %5, align 4, !dbg !152
  %40 = sext i32 %39 to i64, !dbg !153
  %41 = getelementptr inbounds [2 x i64], ptr %2, i64 0, i64 %40, !dbg !153
  %42 = load i64, ptr %41, align 8, !dbg !153
  %43 = call i32 @pthread_join(i64 noundef %42, ptr noundef null), !dbg !154
  br label %44, !dbg !154

44:                                               ; preds = %38
  %45 = load i32, ptr %5, align 4, !dbg !155
  %46 = add nsw i32 %45, 1, !dbg !155
  store i32 %46, ptr %5, align 4, !dbg !155
  br label %35, !dbg !156, !llvm.loop !157

47:                                               ; preds = %35
  %48 = load i64, ptr @sums, align 16, !dbg !159
  %49 = load i64, ptr getelementptr inbounds ([2 x i64], ptr @sums, i64 0, i64 1), align 8, !dbg !160
  %50 = add nsw i64 %48, %49, !dbg !161
  call void @pg_out(i64 noundef %50), !dbg !162
  %51 = call i32 @pthread_cond_destroy(ptr noundef getelementptr inbounds (%struct.queue, ptr @queue, i32 0, i32 2)) #4, !dbg !163
  %52 = call i32 @pthread_cond_destroy(ptr noundef getelementptr inbounds (%struct.queue, ptr @queue, i32 0, i32 1)) #4, !dbg !164
  %53 = call i32 @pthread_mutex_destroy(ptr noundef @queue) #4, !dbg !165
  ret i32 0, !dbg !166
}

; Function Attrs: nocallback nofree nosync nounwind speculatable willreturn memory(none)
declare void @llvm.dbg.declare(metadata, metadata, metadata) #1

; Function Attrs: nounwind
declare i32 @pthread_mutex_init(ptr noundef, ptr noundef) #2

; Function Attrs: nounwind
declare i32 @pthread_cond_init(ptr noundef, ptr noundef) #2

; Function Attrs: nounwind
declare i32 @pthread_create(ptr noundef, ptr noundef, ptr noundef, ptr noundef) #2

; Function Attrs: noinline nounwind optnone uwtable
define internal ptr @worker(ptr noundef %0) #0 !dbg !167 {
  %2 = alloca ptr, align 8
  %3 = alloca i64, align 8
  store ptr %0, ptr %2, align 8
  call void @llvm.dbg.declare(metadata ptr %2, metadata !170, metadata !DIExpression()), !dbg !171
  call void @llvm.dbg.declare(metadata ptr %3, metadata !172, metadata !DIExpression()), !dbg !173
  br label %4, !dbg !174

4:                                                ; preds = %7, %1
  %5 = call i32 @take(ptr noundef @queue, ptr noundef %3), !dbg !175
  %6 = icmp ne i32 %5, 0, !dbg !174
  br i1 %6, label %7, label %12, !dbg !174

7:                                                ; preds = %4
  %8 = load i64, ptr %3, align 8, !dbg !176
  %9 = load ptr, ptr %2, align 8, !dbg !177
  %10 = load i64, ptr %9, align 8, !dbg !178
  %11 = add nsw i64 %10, %8, !dbg !178
  store i64 %11, ptr %9, align 8, !dbg !178
  br label %4, !dbg !174, !llvm.loop !179

12:                                               ; preds = %4
  ret ptr null, !dbg !180
}

declare i64 @pg_in_len() #3

; Function Attrs: noinline nounwind optnone uwtable
define internal void @put(ptr noundef %0, i64 noundef %1) #0 !dbg !181 {
  %3 = alloca ptr, align 8
  %4 = alloca i64, align 8
  store ptr %0, ptr %3, align 8
  call void @llvm.dbg.declare(metadata ptr %3, metadata !185, metadata !DIExpression()), !dbg !186
  store i64 %1, ptr %4, align 8
  call void @llvm.dbg.declare(metadata ptr %4, metadata !187, metadata !DIExpression()), !dbg !188
  %5 = load ptr, ptr %3, align 8, !dbg !189
  %6 = getelementptr inbounds %struct.queue, ptr %5, i32 0, i32 0, !dbg !190
  %7 = call i32 @pthread_mutex_lock(ptr noundef %6) #4, !dbg !191
  br label %8, !dbg !192

8:                                                ; preds = %13, %2
  %9 = load ptr, ptr %3, align 8, !dbg !193
  %10 = getelementptr inbounds %struct.queue, ptr %9, i32 0, i32 5, !dbg !194
  %11 = load i32, ptr %10, align 4, !dbg !194
  %12 = icmp eq i32 %11, 4, !dbg !195
  br i1 %12, label %13, label %19, !dbg !192

13:                                               ; preds = %8
  %14 = load ptr, ptr %3, align 8, !dbg !196
  %15 = getelementptr inbounds %struct.queue, ptr %14, i32 0, i32 2, !dbg !197
  %16 = load ptr, ptr %3, align 8, !dbg !198
  %17 = getelementptr inbounds %struct.queue, ptr %16, i32 0, i32 0, !dbg !199
  %18 = call i32 @pthread_cond_wait(ptr noundef %15, ptr noundef %17), !dbg !200
  br label %8, !dbg !192, !llvm.loop !201

19:                                               ; preds = %8
  %20 = load i64, ptr %4, align 8, !dbg !203
  %21 = load ptr, ptr %3, align 8, !dbg !204
  %22 = getelementptr inbounds %struct.queue, ptr %21, i32 0, i32 3, !dbg !205
  %23 = load ptr, ptr %3, align 8, !dbg !206
  %24 = getelementptr inbounds %struct.queue, ptr %23, i32 0, i32 4, !dbg !207
  %25 = load i32, ptr %24, align 8, !dbg !207
  %26 = load ptr, ptr %3, align 8, !dbg !208
  %27 = getelementptr inbounds %struct.queue, ptr %26, i32 0, i32 5, !dbg !209
  %28 = load i32, ptr %27, align 4, !dbg !209
  %29 = add nsw i32 %25, %28, !dbg !210
  %30 = srem i32 %29, 4, !dbg !211
  %31 = sext i32 %30 to i64, !dbg !204
  %32 = getelementptr inbounds [4 x i64], ptr %22, i64 0, i64 %31, !dbg !204
  store i64 %20, ptr %32, align 8, !dbg !212
  %33 = load ptr, ptr %3, align 8, !dbg !213
  %34 = getelementptr inbounds %struct.queue, ptr %33, i32 0, i32 5, !dbg !214
  %35 = load i32, ptr %34, align 4, !dbg !215
  %36 = add nsw i32 %35, 1, !dbg !215
  store i32 %36, ptr %34, align 4, !dbg !215
  %37 = load ptr, ptr %3, align 8, !dbg !216
  %38 = getelementptr inbounds %struct.queue, ptr %37, i32 0, i32 1, !dbg !217
  %39 = call i32 @pthread_cond_signal(ptr noundef %38) #4, !dbg !218
  %40 = load ptr, ptr %3, align 8, !dbg !219
  %41 = getelementptr inbounds %struct.queue, ptr %40, i32 0, i32 0, !dbg !220
  %42 = call i32 @pthread_mutex_unlock(ptr noundef %41) #4, !dbg !221
  ret void, !dbg !222
}

declare i64 @pg_in(i64 noundef) #3

; Function Attrs: noinline nounwind optnone uwtable
define internal void @close_queue(ptr noundef %0) #0 !dbg !223 {
  %2 = alloca ptr, align 8
  store ptr %0, ptr %2, align 8
  call void @llvm.dbg.declare(metadata ptr %2, metadata !226, metadata !DIExpression()), !dbg !227
  %3 = load ptr, ptr %2, align 8, !dbg !228
  %4 = getelementptr inbounds %struct.queue, ptr %3, i32 0, i32 0, !dbg !229
  %5 = call i32 @pthread_mutex_lock(ptr noundef %4) #4, !dbg !230
  %6 = load ptr, ptr %2, align 8, !dbg !231
  %7 = getelementptr inbounds %struct.queue, ptr %6, i32 0, i32 6, !dbg !232
  store i8 1, ptr %7, align 8, !dbg !233
  %8 = load ptr, ptr %2, align 8, !dbg !234
  %9 = getelementptr inbounds %struct.queue, ptr %8, i32 0, i32 1, !dbg !235
  %10 = call i32 @pthread_cond_broadcast(ptr noundef %9) #4, !dbg !236
  %11 = load ptr, ptr %2, align 8, !dbg !237
  %12 = getelementptr inbounds %struct.queue, ptr %11, i32 0, i32 0, !dbg !238
  %13 = call i32 @pthread_mutex_unlock(ptr noundef %12) #4, !dbg !239
  ret void, !dbg !240
}

declare i32 @pthread_join(i64 noundef, ptr noundef) #3

declare void @pg_out(i64 noundef) #3

; Function Attrs: nounwind
declare i32 @pthread_cond_destroy(ptr noundef) #2

; Function Attrs: nounwind
declare i32 @pthread_mutex_destroy(ptr noundef) #2

; Function Attrs: noinline nounwind optnone uwtable
define internal i32 @take(ptr noundef %0, ptr noundef %1) #0 !dbg !241 {
  %3 = alloca ptr, align 8
  %4 = alloca ptr, align 8
  %5 = alloca i32, align 4
  store ptr %0, ptr %3, align 8
  call void @llvm.dbg.declare(metadata ptr %3, metadata !244, metadata !DIExpression()), !dbg !245
  store ptr %1, ptr %4, align 8
  call void @llvm.dbg.declare(metadata ptr %4, metadata !246, metadata !DIExpression()), !dbg !247
  call void @llvm.dbg.declare(metadata ptr %5, metadata !248, metadata !DIExpression()), !dbg !249
  store i32 0, ptr %5, align 4, !dbg !249
  %6 = load ptr, ptr %3, align 8, !dbg !250
  %7 = getelementptr inbounds %struct.queue, ptr %6, i32 0, i32 0, !dbg !251
  %8 = call i32 @pthread_mutex_lock(ptr noundef %7) #4, !dbg !252
  br label %9, !dbg !253

9:                                                ; preds = %22, %2
  %10 = load ptr, ptr %3, align 8, !dbg !254
  %11 = getelementptr inbounds %struct.queue, ptr %10, i32 0, i32 5, !dbg !255
  %12 = load i32, ptr %11, align 4, !dbg !255
  %13 = icmp eq i32 %12, 0, !dbg !256
  br i1 %13, label %14, label %20, !dbg !257

14:                                               ; preds = %9
  %15 = load ptr, ptr %3, align 8, !dbg !258
  %16 = getelementptr inbounds %struct.queue, ptr %15, i32 0, i32 6, !dbg !259
  %17 = load i8, ptr %16, align 8, !dbg !259
  %18 = icmp ne i8 %17, 0, !dbg !260
  %19 = xor i1 %18, true, !dbg !260
  br label %20

20:                                               ; preds = %14, %9
  %21 = phi i1 [ false, %9 ], [ %19, %14 ], !dbg !261
  br i1 %21, label %22, label %28, !dbg !253

22:                                               ; preds = %20
  %23 = load ptr, ptr %3, align 8, !dbg !262
  %24 = getelementptr inbounds %struct.queue, ptr %23, i32 0, i32 1, !dbg !263
  %25 = load ptr, ptr %3, align 8, !dbg !264
  %26 = getelementptr inbounds %struct.queue, ptr %25, i32 0, i32 0, !dbg !265
  %27 = call i32 @pthread_cond_wait(ptr noundef %24, ptr noundef %26), !dbg !266
  br label %9, !dbg !253, !llvm.loop !267

28:                                               ; preds = %20
  %29 = load ptr, ptr %3, align 8, !dbg !269
  %30 = getelementptr inbounds %struct.queue, ptr %29, i32 0, i32 5, !dbg !271
  %31 = load i32, ptr %30, align 4, !dbg !271
  %32 = icmp sgt i32 %31, 0, !dbg !272
  br i1 %32, label %33, label %57, !dbg !273

33:                                               ; preds = %28
  %34 = load ptr, ptr %3, align 8, !dbg !274
  %35 = getelementptr inbounds %struct.queue, ptr %34, i32 0, i32 3, !dbg !276
  %36 = load ptr, ptr %3, align 8, !dbg !277
  %37 = getelementptr inbounds %struct.queue, ptr %36, i32 0, i32 4, !dbg !278
  %38 = load i32, ptr %37, align 8, !dbg !278
  %39 = sext i32 %38 to i64, !dbg !274
  %40 = getelementptr inbounds [4 x i64], ptr %35, i64 0, i64 %39, !dbg !274
  %41 = load i64, ptr %40, align 8, !dbg !274
  %42 = load ptr, ptr %4, align 8, !dbg !279
  store i64 %41, ptr %42, align 8, !dbg !280
  %43 = load ptr, ptr %3, align 8, !dbg !281
  %44 = getelementptr inbounds %struct.queue, ptr %43, i32 0, i32 4, !dbg !282
  %45 = load i32, ptr %44, align 8, !dbg !282
  %46 = add nsw i32 %45, 1, !dbg !283
  %47 = srem i32 %46, 4, !dbg !284
  %48 = load ptr, ptr %3, align 8, !dbg !285
  %49 = getelementptr inbounds %struct.queue, ptr %48, i32 0, i32 4, !dbg !286
  store i32 %47, ptr %49, align 8, !dbg !287
  %50 = load ptr, ptr %3, align 8, !dbg !288
  %51 = getelementptr inbounds %struct.queue, ptr %50, i32 0, i32 5, !dbg !289
  %52 = load i32, ptr %51, align 4, !dbg !290
  %53 = add nsw i32 %52, -1, !dbg !290
  store i32 %53, ptr %51, align 4, !dbg !290
  store i32 1, ptr %5, align 4, !dbg !291
  %54 = load ptr, ptr %3, align 8, !dbg !292
  %55 = getelementptr inbounds %struct.queue, ptr %54, i32 0, i32 2, !dbg !293
  %56 = call i32 @pthread_cond_signal(ptr noundef %55) #4, !dbg !294
  br label %57, !dbg !295

57:                                               ; preds = %33, %28
  %58 = load ptr, ptr %3, align 8, !dbg !296
  %59 = getelementptr inbounds %struct.queue, ptr %58, i32 0, i32 0, !dbg !297
  %60 = call i32 @pthread_mutex_unlock(ptr noundef %59) #4, !dbg !298
  %61 = load i32, ptr %5, align 4, !dbg !299
  ret i32 %61, !dbg !300
}

; Function Attrs: nounwind
declare i32 @pthread_mutex_lock(ptr noundef) #2

declare i32 @pthread_cond_wait(ptr noundef, ptr noundef) #3

; Function Attrs: nounwind
declare i32 @pthread_cond_signal(ptr noundef) #2

; Function Attrs: nounwind
declare i32 @pthread_mutex_unlock(ptr noundef) #2

; Function Attrs: nounwind
declare i32 @pthread_cond_broadcast(ptr noundef) #2

attributes #0 = { noinline nounwind optnone uwtable "frame-pointer"="all" "min-legal-vector-width"="0" "no-trapping-math"="true" "stack-protector-buffer-size"="8" "target-cpu"="x86-64" "target-features"="+cx8,+fxsr,+mmx,+sse,+sse2,+x87" "tune-cpu"="generic" }
attributes #1 = { nocallback nofree nosync nounwind speculatable willreturn memory(none) }
attributes #2 = { nounwind "frame-pointer"="all" "no-trapping-math"="true" "stack-protector-buffer-size"="8" "target-cpu"="x86-64" "target-features"="+cx8,+fxsr,+mmx,+sse,+sse2,+x87" "tune-cpu"="generic" }
attributes #3 = { "frame-pointer"="all" "no-trapping-math"="true" "stack-protector-buffer-size"="8" "target-cpu"="x86-64" "target-features"="+cx8,+fxsr,+mmx,+sse,+sse2,+x87" "tune-cpu"="generic" }
attributes #4 = { nounwind }

!llvm.dbg.cu = !{!2}
!llvm.module.flags = !{!89, !90, !91, !92, !93, !94, !95}
!llvm.ident = !{!96}

!0 = !DIGlobalVariableExpression(var: !1, expr: !DIExpression())
!1 = distinct !DIGlobalVariable(name: "queue", scope: !2, file: !3, line: 19, type: !14, isLocal: true, isDefinition: true)
!2 = distinct !DICompileUnit(language: DW_LANG_C11, file: !3, producer: "Debian clang version 16.0.6 (15~deb12u1)", isOptimized: false, runtimeVersion: 0, emissionKind: FullDebug, retainedTypes: !4, globals: !8, splitDebugInlining: false, nameTableKind: None)
!3 = !DIFile(filename: "queue.c", directory: ".", checksumkind: CSK_MD5, checksum: "9244e3eda448f763a19a4e358be5b1bf")
!4 = !{!5, !7}
!5 = !DIDerivedType(tag: DW_TAG_pointer_type, baseType: !6, size: 64)
!6 = !DIBasicType(name: "long", size: 64, encoding: DW_ATE_signed)
!7 = !DIDerivedType(tag: DW_TAG_pointer_type, baseType: null, size: 64)
!8 = !{!0, !9}
!9 = !DIGlobalVariableExpression(var: !10, expr: !DIExpression())
!10 = distinct !DIGlobalVariable(name: "sums", scope: !2, file: !3, line: 20, type: !11, isLocal: true, isDefinition: true)
!11 = !DICompositeType(tag: DW_TAG_array_type, baseType: !6, size: 128, elements: !12)
!12 = !{!13}
!13 = !DISubrange(count: 2)
!14 = distinct !DICompositeType(tag: DW_TAG_structure_type, name: "queue", file: !3, line: 11, size: 1472, elements: !15)
!15 = !{!16, !49, !81, !82, !86, !87, !88}
!16 = !DIDerivedType(tag: DW_TAG_member, name: "lock", scope: !14, file: !3, line: 12, baseType: !17, size: 320)
!17 = !DIDerivedType(tag: DW_TAG_typedef, name: "pthread_mutex_t", file: !18, line: 72, baseType: !19)
!18 = !DIFile(filename: "/usr/include/x86_64-linux-gnu/bits/pthreadtypes.h", directory: "", checksumkind: CSK_MD5, checksum: "735e3bf264ff9d8f5d95898b1692fbdb")
!19 = distinct !DICompositeType(tag: DW_TAG_union_type, file: !18, line: 67, size: 320, elements: !20)
!20 = !{!21, !43, !48}
!21 = !DIDerivedType(tag: DW_TAG_member, name: "__data", scope: !19, file: !18, line: 69, baseType: !22, size: 320)
!22 = distinct !DICompositeType(tag: DW_TAG_structure_type, name: "__pthread_mutex_s", file: !23, line: 22, size: 320, elements: !24)
!23 = !DIFile(filename: "/usr/include/x86_64-linux-gnu/bits/struct_mutex.h", directory: "", checksumkind: CSK_MD5, checksum: "584baedd80e6041b81caae7f496091c0")
!24 = !{!25, !27, !29, !30, !31, !32, !34, !35}
!25 = !DIDerivedType(tag: DW_TAG_member, name: "__lock", scope: !22, file: !23, line: 24, baseType: !26, size: 32)
!26 = !DIBasicType(name: "int", size: 32, encoding: DW_ATE_signed)
!27 = !DIDerivedType(tag: DW_TAG_member, name: "__count", scope: !22, file: !23, line: 25, baseType: !28, size: 32, offset: 32)
!28 = !DIBasicType(name: "unsigned int", size: 32, encoding: DW_ATE_unsigned)
!29 = !DIDerivedType(tag: DW_TAG_member, name: "__owner", scope: !22, file: !23, line: 26, baseType: !26, size: 32, offset: 64)
!30 = !DIDerivedType(tag: DW_TAG_member, name: "__nusers", scope: !22, file: !23, line: 28, baseType: !28, size: 32, offset: 96)
!31 = !DIDerivedType(tag: DW_TAG_member, name: "__kind", scope: !22, file: !23, line: 32, baseType: !26, size: 32, offset: 128)
!32 = !DIDerivedType(tag: DW_TAG_member, name: "__spins", scope: !22, file: !23, line: 34, baseType: !33, size: 16, offset: 160)
!33 = !DIBasicType(name: "short", size: 16, encoding: DW_ATE_signed)
!34 = !DIDerivedType(tag: DW_TAG_member, name: "__elision", scope: !22, file: !23, line: 35, baseType: !33, size: 16, offset: 176)
!35 = !DIDerivedType(tag: DW_TAG_member, name: "__list", scope: !22, file: !23, line: 36, baseType: !36, size: 128, offset: 192)
!36 = !DIDerivedType(tag: DW_TAG_typedef, name: "__pthread_list_t", file: !37, line: 55, baseType: !38)
!37 = !DIFile(filename: "/usr/include/x86_64-linux-gnu/bits/thread-shared-types.h", directory: "", checksumkind: CSK_MD5, checksum: "04c81e86d34dad9c99ad006d32e47a0d")
!38 = distinct !DICompositeType(tag: DW_TAG_structure_type, name: "__pthread_internal_list", file: !37, line: 51, size: 128, elements: !39)
!39 = !{!40, !42}
!40 = !DIDerivedType(tag: DW_TAG_member, name: "__prev", scope: !38, file: !37, line: 53, baseType: !41, size: 64)
!41 = !DIDerivedType(tag: DW_TAG_pointer_type, baseType: !38, size: 64)
!42 = !DIDerivedType(tag: DW_TAG_member, name: "__next", scope: !38, file: !37, line: 54, baseType: !41, size: 64, offset: 64)
!43 = !DIDerivedType(tag: DW_TAG_member, name: "__size", scope: !19, file: !18, line: 70, baseType: !44, size: 320)
!44 = !DICompositeType(tag: DW_TAG_array_type, baseType: !45, size: 320, elements: !46)
!45 = !DIBasicType(name: "char", size: 8, encoding: DW_ATE_signed_char)
!46 = !{!47}
!47 = !DISubrange(count: 40)
!48 = !DIDerivedType(tag: DW_TAG_member, name: "__align", scope: !19, file: !18, line: 71, baseType: !6, size: 64)
!49 = !DIDerivedType(tag: DW_TAG_member, name: "not_empty", scope: !14, file: !3, line: 13, baseType: !50, size: 384, offset: 320)
!50 = !DIDerivedType(tag: DW_TAG_typedef, name: "pthread_cond_t", file: !18, line: 80, baseType: !51)
!51 = distinct !DICompositeType(tag: DW_TAG_union_type, file: !18, line: 75, size: 384, elements: !52)
!52 = !{!53, !75, !79}
!53 = !DIDerivedType(tag: DW_TAG_member, name: "__data", scope: !51, file: !18, line: 77, baseType: !54, size: 384)
!54 = distinct !DICompositeType(tag: DW_TAG_structure_type, name: "__pthread_cond_s", file: !37, line: 94, size: 384, elements: !55)
!55 = !{!56, !68, !69, !71, !72, !73, !74}
!56 = !DIDerivedType(tag: DW_TAG_member, name: "__wseq", scope: !54, file: !37, line: 96, baseType: !57, size: 64)
!57 = !DIDerivedType(tag: DW_TAG_typedef, name: "__atomic_wide_counter", file: !58, line: 33, baseType: !59)
!58 = !DIFile(filename: "/usr/include/x86_64-linux-gnu/bits/atomic_wide_counter.h", directory: "", checksumkind: CSK_MD5, checksum: "2708e6e61e266abad2d765ccef838dbe")
!59 = distinct !DICompositeType(tag: DW_TAG_union_type, file: !58, line: 25, size: 64, elements: !60)
!60 = !{!61, !63}
!61 = !DIDerivedType(tag: DW_TAG_member, name: "__value64", scope: !59, file: !58, line: 27, baseType: !62, size: 64)
!62 = !DIBasicType(name: "unsigned long long", size: 64, encoding: DW_ATE_unsigned)
!63 = !DIDerivedType(tag: DW_TAG_member, name: "__value32", scope: !59, file: !58, line: 32, baseType: !64, size: 64)
!64 = distinct !DICompositeType(tag: DW_TAG_structure_type, scope: !59, file: !58, line: 28, size: 64, elements: !65)
!65 = !{!66, !67}
!66 = !DIDerivedType(tag: DW_TAG_member, name: "__low", scope: !64, file: !58, line: 30, baseType: !28, size: 32)
!67 = !DIDerivedType(tag: DW_TAG_member, name: "__high", scope: !64, file: !58, line: 31, baseType: !28, size: 32, offset: 32)
!68 = !DIDerivedType(tag: DW_TAG_member, name: "__g1_start", scope: !54, file: !37, line: 97, baseType: !57, size: 64, offset: 64)
!69 = !DIDerivedType(tag: DW_TAG_member, name: "__g_refs", scope: !54, file: !37, line: 98, baseType: !70, size: 64, offset: 128)
!70 = !DICompositeType(tag: DW_TAG_array_type, baseType: !28, size: 64, elements: !12)
!71 = !DIDerivedType(tag: DW_TAG_member, name: "__g_size", scope: !54, file: !37, line: 99, baseType: !70, size: 64, offset: 192)
!72 = !DIDerivedType(tag: DW_TAG_member, name: "__g1_orig_size", scope: !54, file: !37, line: 100, baseType: !28, size: 32, offset: 256)
!73 = !DIDerivedType(tag: DW_TAG_member, name: "__wrefs", scope: !54, file: !37, line: 101, baseType: !28, size: 32, offset: 288)
!74 = !DIDerivedType(tag: DW_TAG_member, name: "__g_signals", scope: !54, file: !37, line: 102, baseType: !70, size: 64, offset: 320)
!75 = !DIDerivedType(tag: DW_TAG_member, name: "__size", scope: !51, file: !18, line: 78, baseType: !76, size: 384)
!76 = !DICompositeType(tag: DW_TAG_array_type, baseType: !45, size: 384, elements: !77)
!77 = !{!78}
!78 = !DISubrange(count: 48)
!79 = !DIDerivedType(tag: DW_TAG_member, name: "__align", scope: !51, file: !18, line: 79, baseType: !80, size: 64)
!80 = !DIBasicType(name: "long long", size: 64, encoding: DW_ATE_signed)
!81 = !DIDerivedType(tag: DW_TAG_member, name: "not_full", scope: !14, file: !3, line: 13, baseType: !50, size: 384, offset: 704)
!82 = !DIDerivedType(tag: DW_TAG_member, name: "items", scope: !14, file: !3, line: 14, baseType: !83, size: 256, offset: 1088)
!83 = !DICompositeType(tag: DW_TAG_array_type, baseType: !6, size: 256, elements: !84)
!84 = !{!85}
!85 = !DISubrange(count: 4)
!86 = !DIDerivedType(tag: DW_TAG_member, name: "first", scope: !14, file: !3, line: 15, baseType: !26, size: 32, offset: 1344)
!87 = !DIDerivedType(tag: DW_TAG_member, name: "count", scope: !14, file: !3, line: 15, baseType: !26, size: 32, offset: 1376)
!88 = !DIDerivedType(tag: DW_TAG_member, name: "closed", scope: !14, file: !3, line: 16, baseType: !45, size: 8, offset: 1408)
!89 = !{i32 7, !"Dwarf Version", i32 5}
!90 = !{i32 2, !"Debug Info Version", i32 3}
!91 = !{i32 1, !"wchar_size", i32 4}
!92 = !{i32 8, !"PIC Level", i32 2}
!93 = !{i32 7, !"PIE Level", i32 2}
!94 = !{i32 7, !"uwtable", i32 2}
!95 = !{i32 7, !"frame-pointer", i32 2}
!96 = !{!"Debian clang version 16.0.6 (15~deb12u1)"}
!97 = distinct !DISubprogram(name: "main", scope: !3, file: !3, line: 63, type: !98, scopeLine: 63, flags: DIFlagPrototyped, spFlags: DISPFlagDefinition, unit: !2, retainedNodes: !100)
!98 = !DISubroutineType(types: !99)
!99 = !{!26}
!100 = !{}
!101 = !DILocalVariable(name: "threads", scope: !97, file: !3, line: 64, type: !102)
!102 = !DICompositeType(tag: DW_TAG_array_type, baseType: !103, size: 128, elements: !12)
!103 = !DIDerivedType(tag: DW_TAG_typedef, name: "pthread_t", file: !18, line: 27, baseType: !104)
!104 = !DIBasicType(name: "unsigned long", size: 64, encoding: DW_ATE_unsigned)
!105 = !DILocation(line: 64, column: 15, scope: !97)
!106 = !DILocation(line: 65, column: 5, scope: !97)
!107 = !DILocation(line: 66, column: 5, scope: !97)
!108 = !DILocation(line: 67, column: 5, scope: !97)
!109 = !DILocalVariable(name: "t", scope: !110, file: !3, line: 68, type: !26)
!110 = distinct !DILexicalBlock(scope: !97, file: !3, line: 68, column: 5)
!111 = !DILocation(line: 68, column: 14, scope: !110)
!112 = !DILocation(line: 68, column: 10, scope: !110)
!113 = !DILocation(line: 68, column: 21, scope: !114)
!114 = distinct !DILexicalBlock(scope: !110, file: !3, line: 68, column: 5)
!115 = !DILocation(line: 68, column: 23, scope: !114)
!116 = !DILocation(line: 68, column: 5, scope: !110)
!117 = !DILocation(line: 69, column: 33, scope: !114)
!118 = !DILocation(line: 69, column: 25, scope: !114)
!119 = !DILocation(line: 69, column: 57, scope: !114)
!120 = !DILocation(line: 69, column: 52, scope: !114)
!121 = !DILocation(line: 69, column: 9, scope: !114)
!122 = !DILocation(line: 68, column: 29, scope: !114)
!123 = !DILocation(line: 68, column: 5, scope: !114)
!124 = distinct !{!124, !116, !125, !126}
!125 = !DILocation(line: 69, column: 59, scope: !110)
!126 = !{!"llvm.loop.mustprogress"}
!127 = !DILocalVariable(name: "i", scope: !128, file: !3, line: 70, type: !6)
!128 = distinct !DILexicalBlock(scope: !97, file: !3, line: 70, column: 5)
!129 = !DILocation(line: 70, column: 15, scope: !128)
!130 = !DILocation(line: 70, column: 10, scope: !128)
!131 = !DILocation(line: 70, column: 22, scope: !132)
!132 = distinct !DILexicalBlock(scope: !128, file: !3, line: 70, column: 5)
!133 = !DILocation(line: 70, column: 26, scope: !132)
!134 = !DILocation(line: 70, column: 24, scope: !132)
!135 = !DILocation(line: 70, column: 5, scope: !128)
!136 = !DILocation(line: 71, column: 27, scope: !132)
!137 = !DILocation(line: 71, column: 21, scope: !132)
!138 = !DILocation(line: 71, column: 9, scope: !132)
!139 = !DILocation(line: 70, column: 40, scope: !132)
!140 = !DILocation(line: 70, column: 5, scope: !132)
!141 = distinct !{!141, !135, !142, !126}
!142 = !DILocation(line: 71, column: 29, scope: !128)
!143 = !DILocation(line: 72, column: 5, scope: !97)
!144 = !DILocalVariable(name: "t", scope: !145, file: !3, line: 73, type: !26)
!145 = distinct !DILexicalBlock(scope: !97, file: !3, line: 73, column: 5)
!146 = !DILocation(line: 73, column: 14, scope: !145)
!147 = !DILocation(line: 73, column: 10, scope: !145)
!148 = !DILocation(line: 73, column: 21, scope: !149)
!149 = distinct !DILexicalBlock(scope: !145, file: !3, line: 73, column: 5)
!150 = !DILocation(line: 73, column: 23, scope: !149)
!151 = !DILocation(line: 73, column: 5, scope: !145)
!152 = !DILocation(line: 74, column: 30, scope: !149)
!153 = !DILocation(line: 74, column: 22, scope: !149)
!154 = !DILocation(line: 74, column: 9, scope: !149)
!155 = !DILocation(line: 73, column: 29, scope: !149)
!156 = !DILocation(line: 73, column: 5, scope: !149)
!157 = distinct !{!157, !151, !158, !126}
!158 = !DILocation(line: 74, column: 38, scope: !145)
!159 = !DILocation(line: 75, column: 12, scope: !97)
!160 = !DILocation(line: 75, column: 22, scope: !97)
!161 = !DILocation(line: 75, column: 20, scope: !97)
!162 = !DILocation(line: 75, column: 5, scope: !97)
!163 = !DILocation(line: 76, column: 5, scope: !97)
!164 = !DILocation(line: 77, column: 5, scope: !97)
!165 = !DILocation(line: 78, column: 5, scope: !97)
!166 = !DILocation(line: 79, column: 5, scope: !97)
!167 = distinct !DISubprogram(name: "worker", scope: !3, file: !3, line: 56, type: !168, scopeLine: 56, flags: DIFlagPrototyped, spFlags: DISPFlagLocalToUnit | DISPFlagDefinition, unit: !2, retainedNodes: !100)
!168 = !DISubroutineType(types: !169)
!169 = !{!7, !7}
!170 = !DILocalVariable(name: "sum", arg: 1, scope: !167, file: !3, line: 56, type: !7)
!171 = !DILocation(line: 56, column: 27, scope: !167)
!172 = !DILocalVariable(name: "v", scope: !167, file: !3, line: 57, type: !6)
!173 = !DILocation(line: 57, column: 10, scope: !167)
!174 = !DILocation(line: 58, column: 5, scope: !167)
!175 = !DILocation(line: 58, column: 12, scope: !167)
!176 = !DILocation(line: 59, column: 25, scope: !167)
!177 = !DILocation(line: 59, column: 18, scope: !167)
!178 = !DILocation(line: 59, column: 22, scope: !167)
!179 = distinct !{!179, !174, !176, !126}
!180 = !DILocation(line: 60, column: 5, scope: !167)
!181 = distinct !DISubprogram(name: "put", scope: !3, file: !3, line: 22, type: !182, scopeLine: 22, flags: DIFlagPrototyped, spFlags: DISPFlagLocalToUnit | DISPFlagDefinition, unit: !2, retainedNodes: !100)
!182 = !DISubroutineType(types: !183)
!183 = !{null, !184, !6}
!184 = !DIDerivedType(tag: DW_TAG_pointer_type, baseType: !14, size: 64)
!185 = !DILocalVariable(name: "q", arg: 1, scope: !181, file: !3, line: 22, type: !184)
!186 = !DILocation(line: 22, column: 31, scope: !181)
!187 = !DILocalVariable(name: "v", arg: 2, scope: !181, file: !3, line: 22, type: !6)
!188 = !DILocation(line: 22, column: 39, scope: !181)
!189 = !DILocation(line: 23, column: 25, scope: !181)
!190 = !DILocation(line: 23, column: 28, scope: !181)
!191 = !DILocation(line: 23, column: 5, scope: !181)
!192 = !DILocation(line: 24, column: 5, scope: !181)
!193 = !DILocation(line: 24, column: 12, scope: !181)
!194 = !DILocation(line: 24, column: 15, scope: !181)
!195 = !DILocation(line: 24, column: 21, scope: !181)
!196 = !DILocation(line: 25, column: 28, scope: !181)
!197 = !DILocation(line: 25, column: 31, scope: !181)
!198 = !DILocation(line: 25, column: 42, scope: !181)
!199 = !DILocation(line: 25, column: 45, scope: !181)
!200 = !DILocation(line: 25, column: 9, scope: !181)
!201 = distinct !{!201, !192, !202, !126}
!202 = !DILocation(line: 25, column: 49, scope: !181)
!203 = !DILocation(line: 26, column: 48, scope: !181)
!204 = !DILocation(line: 26, column: 5, scope: !181)
!205 = !DILocation(line: 26, column: 8, scope: !181)
!206 = !DILocation(line: 26, column: 15, scope: !181)
!207 = !DILocation(line: 26, column: 18, scope: !181)
!208 = !DILocation(line: 26, column: 26, scope: !181)
!209 = !DILocation(line: 26, column: 29, scope: !181)
!210 = !DILocation(line: 26, column: 24, scope: !181)
!211 = !DILocation(line: 26, column: 36, scope: !181)
!212 = !DILocation(line: 26, column: 46, scope: !181)
!213 = !DILocation(line: 27, column: 5, scope: !181)
!214 = !DILocation(line: 27, column: 8, scope: !181)
!215 = !DILocation(line: 27, column: 13, scope: !181)
!216 = !DILocation(line: 28, column: 26, scope: !181)
!217 = !DILocation(line: 28, column: 29, scope: !181)
!218 = !DILocation(line: 28, column: 5, scope: !181)
!219 = !DILocation(line: 29, column: 27, scope: !181)
!220 = !DILocation(line: 29, column: 30, scope: !181)
!221 = !DILocation(line: 29, column: 5, scope: !181)
!222 = !DILocation(line: 30, column: 1, scope: !181)
!223 = distinct !DISubprogram(name: "close_queue", scope: !3, file: !3, line: 32, type: !224, scopeLine: 32, flags: DIFlagPrototyped, spFlags: DISPFlagLocalToUnit | DISPFlagDefinition, unit: !2, retainedNodes: !100)
!224 = !DISubroutineType(types: !225)
!225 = !{null, !184}
!226 = !DILocalVariable(name: "q", arg: 1, scope: !223, file: !3, line: 32, type: !184)
!227 = !DILocation(line: 32, column: 39, scope: !223)
!228 = !DILocation(line: 33, column: 25, scope: !223)
!229 = !DILocation(line: 33, column: 28, scope: !223)
!230 = !DILocation(line: 33, column: 5, scope: !223)
!231 = !DILocation(line: 34, column: 5, scope: !223)
!232 = !DILocation(line: 34, column: 8, scope: !223)
!233 = !DILocation(line: 34, column: 15, scope: !223)
!234 = !DILocation(line: 35, column: 29, scope: !223)
!235 = !DILocation(line: 35, column: 32, scope: !223)
!236 = !DILocation(line: 35, column: 5, scope: !223)
!237 = !DILocation(line: 36, column: 27, scope: !223)
!238 = !DILocation(line: 36, column: 30, scope: !223)
!239 = !DILocation(line: 36, column: 5, scope: !223)
!240 = !DILocation(line: 37, column: 1, scope: !223)
!241 = distinct !DISubprogram(name: "take", scope: !3, file: !3, line: 40, type: !242, scopeLine: 40, flags: DIFlagPrototyped, spFlags: DISPFlagLocalToUnit | DISPFlagDefinition, unit: !2, retainedNodes: !100)
!242 = !DISubroutineType(types: !243)
!243 = !{!26, !184, !5}
!244 = !DILocalVariable(name: "q", arg: 1, scope: !241, file: !3, line: 40, type: !184)
!245 = !DILocation(line: 40, column: 31, scope: !241)
!246 = !DILocalVariable(name: "v", arg: 2, scope: !241, file: !3, line: 40, type: !5)
!247 = !DILocation(line: 40, column: 40, scope: !241)
!248 = !DILocalVariable(name: "found", scope: !241, file: !3, line: 41, type: !26)
!249 = !DILocation(line: 41, column: 9, scope: !241)
!250 = !DILocation(line: 42, column: 25, scope: !241)
!251 = !DILocation(line: 42, column: 28, scope: !241)
!252 = !DILocation(line: 42, column: 5, scope: !241)
!253 = !DILocation(line: 43, column: 5, scope: !241)
!254 = !DILocation(line: 43, column: 12, scope: !241)
!255 = !DILocation(line: 43, column: 15, scope: !241)
!256 = !DILocation(line: 43, column: 21, scope: !241)
!257 = !DILocation(line: 43, column: 26, scope: !241)
!258 = !DILocation(line: 43, column: 30, scope: !241)
!259 = !DILocation(line: 43, column: 33, scope: !241)
!260 = !DILocation(line: 43, column: 29, scope: !241)
!261 = !DILocation(line: 0, scope: !241)
!262 = !DILocation(line: 44, column: 28, scope: !241)
!263 = !DILocation(line: 44, column: 31, scope: !241)
!264 = !DILocation(line: 44, column: 43, scope: !241)
!265 = !DILocation(line: 44, column: 46, scope: !241)
!266 = !DILocation(line: 44, column: 9, scope: !241)
!267 = distinct !{!267, !253, !268, !126}
!268 = !DILocation(line: 44, column: 50, scope: !241)
!269 = !DILocation(line: 45, column: 9, scope: !270)
!270 = distinct !DILexicalBlock(scope: !241, file: !3, line: 45, column: 9)
!271 = !DILocation(line: 45, column: 12, scope: !270)
!272 = !DILocation(line: 45, column: 18, scope: !270)
!273 = !DILocation(line: 45, column: 9, scope: !241)
!274 = !DILocation(line: 46, column: 14, scope: !275)
!275 = distinct !DILexicalBlock(scope: !270, file: !3, line: 45, column: 23)
!276 = !DILocation(line: 46, column: 17, scope: !275)
!277 = !DILocation(line: 46, column: 23, scope: !275)
!278 = !DILocation(line: 46, column: 26, scope: !275)
!279 = !DILocation(line: 46, column: 10, scope: !275)
!280 = !DILocation(line: 46, column: 12, scope: !275)
!281 = !DILocation(line: 47, column: 21, scope: !275)
!282 = !DILocation(line: 47, column: 24, scope: !275)
!283 = !DILocation(line: 47, column: 30, scope: !275)
!284 = !DILocation(line: 47, column: 35, scope: !275)
!285 = !DILocation(line: 47, column: 9, scope: !275)
!286 = !DILocation(line: 47, column: 12, scope: !275)
!287 = !DILocation(line: 47, column: 18, scope: !275)
!288 = !DILocation(line: 48, column: 9, scope: !275)
!289 = !DILocation(line: 48, column: 12, scope: !275)
!290 = !DILocation(line: 48, column: 17, scope: !275)
!291 = !DILocation(line: 49, column: 15, scope: !275)
!292 = !DILocation(line: 50, column: 30, scope: !275)
!293 = !DILocation(line: 50, column: 33, scope: !275)
!294 = !DILocation(line: 50, column: 9, scope: !275)
!295 = !DILocation(line: 51, column: 5, scope: !275)
!296 = !DILocation(line: 52, column: 27, scope: !241)
!297 = !DILocation(line: 52, column: 30, scope: !241)
!298 = !DILocation(line: 52, column: 5, scope: !241)
!299 = !DILocation(line: 53, column: 12, scope: !241)
!300 = !DILocation(line: 53, column: 5, scope: !241)
