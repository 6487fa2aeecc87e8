; ModuleID = 'barrier.c'
source_filename = "barrier.c"
target datalayout = "e-m:e-p270:32:32-p271:32:32-p272:64:64-i64:64-f80:128-n8:16:32:64-S128"
target triple = "x86_64-pc-linux-gnu"

%union.pthread_barrier_t = type { i64, [24 x i8] }

@barrier = internal global %union.pthread_barrier_t zeroinitializer, align 8, !dbg !0
@places = internal global [3 x i64] zeroinitializer, align 16, !dbg !15
@numbers = internal global [2 x [3 x i64]] zeroinitializer, align 16, !dbg !9

; Function Attrs: noinline nounwind optnone uwtable
define dso_local i32 @main() #0 !dbg !37 {
  %1 = alloca i32, align 4
  %2 = alloca [3 x i64], align 16
  %3 = alloca i32, align 4
  %4 = alloca i32, align 4
  %5 = alloca i32, align 4
  store i32 0, ptr %1, align 4
  call void @llvm.dbg.declare(metadata ptr %2, metadata !42, metadata !DIExpression()), !dbg !46
  %6 = call i32 @pthread_barrier_init(ptr noundef @barrier, ptr noundef null, i32 noundef 3) #4, !dbg !47
  call void @llvm.dbg.declare(metadata ptr %3, metadata !48, metadata !DIExpression()), !dbg !50
  store i32 0, ptr %3, align 4, !dbg !50
  br label %7, !dbg !51

7:                                                ; preds = %22, %0
  %8 = load i32, ptr %3, align 4, !dbg !52
  %9 = icmp slt i32 %8, 3, !dbg !54
  br i1 %9, label %10, label %25, !dbg !55

10:                                               ; preds = %7
  %11 = load i32, ptr %3, align 4, !dbg !56
  %12 = sext i32 %11 to i64, !dbg !56
  %13 = load i32, ptr %3, align 4, !dbg !58
  %14 = sext i32 %13 to i64, !dbg !59
  %15 = getelementptr inbounds [3 x i64], ptr @places, i64 0, i64 %14, !dbg !59
  store i64 %12, ptr %15, align 8, !dbg !60
  %16 = load i32, ptr %3, align 4, !dbg !61
  %17 = sext i32 %16 to i64, !dbg !61
  %18 = call i64 @pg_in(i64 noundef %17), !dbg !62
  %19 = load i32, ptr %3, align 4, !dbg !63
  %20 = sext i32 %19 to i64, !dbg !64
  %21 = getelementptr inbounds [3 x i64], ptr @numbers, i64 0, i64 %20, !dbg !64
  store i64 %18, ptr %21, align 8, !dbg !65
  br label %22, !dbg !66

22:                                               ; preds = %10
  %23 = load i32, ptr %3, align 4, !dbg !67
  %24 = add nsw i32 %23, 1, !dbg !67
  store i32 %24, ptr %3, align 4, !dbg !67
  br label %7, !dbg !68, !llvm.loop !69

25:                                               ; preds = %7
  call void @llvm.dbg.declare(metadata ptr %4, metadata !72, metadata !DIExpression()), !dbg !74
  store i32 0, ptr %4, align 4, !dbg !74
  br label %26, !dbg !75

26:                                               ; preds = %37, %25
  %27 = load i32, ptr %4, align 4, !dbg !76
  %28 = icmp slt i32 %27, 3, !dbg !78
  br i1 %28, label %29, label %40, !dbg !79

29:                                               ; preds = %26
  %30 = load i32, ptr %4, align 4, !dbg !80
  %31 = sext i32 %30 to i64, !dbg !81
  %32 = getelementptr inbounds [3 x i64], ptr %2, i64 0, i64 %31, !dbg !81
  %33 = load i32, ptr %4, align 4, !dbg !82
  %34 = sext i32 %33 to i64, !dbg !83
  %35 = getelementptr inbounds [3 x i64], ptr @places, i64 0, i64 %34, !dbg !83
  %36 = call i32 @pthread_create(ptr noundef %32, ptr noundef null, ptr noundef @worker, ptr noundef %35) #4, !dbg !84
  br label %37, !dbg !84

37:                                               ; preds = %29
  %38 = load i32, ptr %4, align 4, !dbg !85
  %39 = add nsw i32 %38, 1, !dbg !85
  store i32 %39, ptr %4, align 4, !dbg !85
  br label %26, !dbg !86, !llvm.loop !87

40:                                               ; preds = %26
  call void @llvm.dbg.declare(metadata ptr %5, metadata !89, metadata !DIExpression()), !dbg !91
  store i32 0, ptr %5, align 4, !dbg !91
  br label %41, !dbg !92

41:                                               ; preds = %50, %40
  %42 = load i32, ptr %5, align 4, !dbg !93
  %43 = icmp slt i32 %42, 3, !dbg !95
  br i1 %43, label %44, label %53, !dbg !96

44:                                               ; preds = %41
  %45 = load i32, ptr %5, align 4, !dbg !97
  %46 = sext i32 %45 to i64, !dbg !98
  %47 = getelementptr inbounds [3 x i64], ptr %2, i64 0, i64 %46, !dbg !98
  %48 = load i64, ptr %47, align 8, !dbg !98
  %49 = call i32 @pthread_join(i64 noundef %48, ptr noundef null), !dbg !99
  br label %50, !dbg !99

50:                                               ; preds = %44
  %51 = load i32, ptr %5, align 4, !dbg !100
  %52 = add nsw i32 %51, 1, !dbg !100
  store i32 %52, ptr %5, align 4, !dbg !100
  br label %41, !dbg !101, !llvm.loop !102

53:                                               ; preds = %41
  %54 = call i32 @pthread_barrier_destroy(ptr noundef @barrier) #4, !dbg !104
  ret i32 0, !dbg !105
}

; Function Attrs: nocallback nofree nosync nounwind speculatable willreturn memory(none)
declare void @llvm.dbg.declare(metadata, metadata, metadata) #1

; Function Attrs: nounwind
declare i32 @pthread_barrier_init(ptr noundef, ptr noundef, i32 noundef) #2

declare i64 @pg_in(i64 noundef) #3

; Function Attrs: nounwind
declare i32 @pthread_create(ptr noundef, ptr noundef, ptr noundef, ptr noundef) #2

; Function Attrs: noinline nounwind optnone uwtable
define internal ptr @worker(ptr noundef %0) #0 !dbg !106 {
  %2 = alloca ptr, align 8
  %3 = alloca i64, align 8
  %4 = alloca i32, align 4
  %5 = alloca ptr, align 8
  %6 = alloca ptr, align 8
  store ptr %0, ptr %2, align 8
  call void @llvm.dbg.declare(metadata ptr %2, metadata !109, metadata !DIExpression()), !dbg !110
  call void @llvm.dbg.declare(metadata ptr %3, metadata !111, metadata !DIExpression()), !dbg !112
  %7 = load ptr, ptr %2, align 8, !dbg !113
  %8 = load i64, ptr %7, align 8, !dbg !114
  store i64 %8, ptr %3, align 8, !dbg !112
  call void @llvm.dbg.declare(metadata ptr %4, metadata !115, metadata !DIExpression()), !dbg !117
  store i32 0, ptr %4, align 4, !dbg !117
  br label %9, !dbg !118

9:                                                ; preds = %38, %1
  %10 = load i32, ptr %4, align 4, !dbg !119
  %11 = icmp slt i32 %10, 4, !dbg !121
  br i1 %11, label %12, label %41, !dbg !122

12:                                               ; preds = %9
  call void @llvm.dbg.declare(metadata ptr %5, metadata !123, metadata !DIExpression()), !dbg !125
  %13 = load i32, ptr %4, align 4, !dbg !126
  %14 = srem i32 %13, 2, !dbg !127
  %15 = sext i32 %14 to i64, !dbg !128
  %16 = getelementptr inbounds [2 x [3 x i64]], ptr @numbers, i64 0, i64 %15, !dbg !128
  %17 = getelementptr inbounds [3 x i64], ptr %16, i64 0, i64 0, !dbg !128
  store ptr %17, ptr %5, align 8, !dbg !125
  call void @llvm.dbg.declare(metadata ptr %6, metadata !129, metadata !DIExpression()), !dbg !130
  %18 = load i32, ptr %4, align 4, !dbg !131
  %19 = add nsw i32 %18, 1, !dbg !132
  %20 = srem i32 %19, 2, !dbg !133
  %21 = sext i32 %20 to i64, !dbg !134
  %22 = getelementptr inbounds [2 x [3 x i64]], ptr @numbers, i64 0, i64 %21, !dbg !134
  %23 = getelementptr inbounds [3 x i64], ptr %22, i64 0, i64 0, !dbg !134
  store ptr %23, ptr %6, align 8, !dbg !130
  %24 = load ptr, ptr %5, align 8, !dbg !135
  %25 = call i64 @total(ptr noundef %24), !dbg !136
  %26 = load ptr, ptr %6, align 8, !dbg !137
  %27 = load i64, ptr %3, align 8, !dbg !138
  %28 = getelementptr inbounds i64, ptr %26, i64 %27, !dbg !137
  store i64 %25, ptr %28, align 8, !dbg !139
  %29 = call i32 @pthread_barrier_wait(ptr noundef @barrier) #4, !dbg !140
  %30 = icmp eq i32 %29, -1, !dbg !142
  br i1 %30, label %31, label %36, !dbg !143

31:                                               ; preds = %12
  %32 = load ptr, ptr %6, align 8, !dbg !144
  %33 = load i64, ptr %3, align 8, !dbg !145
  %34 = getelementptr inbounds i64, ptr %32, i64 %33, !dbg !144
  %35 = load i64, ptr %34, align 8, !dbg !144
  call void @pg_out(i64 noundef %35), !dbg !146
  br label %36, !dbg !146

36:                                               ; preds = %31, %12
  %37 = call i32 @pthread_barrier_wait(ptr noundef @barrier) #4, !dbg !147
  br label %38, !dbg !148

38:                                               ; preds = %36
  %39 = load i32, ptr %4, align 4, !dbg !149
  %40 = add nsw i32 %39, 1, !dbg !149
  store i32 %40, ptr %4, align 4, !dbg !149
  br label %9, !dbg !150, !llvm.loop !151

41:                                               ; preds = %9
  ret ptr null, !dbg !153
}

declare i32 @pthread_join(i64 noundef, ptr noundef) #3

; Function Attrs: nounwind
declare i32 @pthread_barrier_destroy(ptr noundef) #2

; Function Attrs: noinline nounwind optnone uwtable
define internal i64 @total(ptr noundef %0) #0 !dbg !154 {
  %2 = alloca ptr, align 8
  %3 = alloca i64, align 8
  %4 = alloca i32, align 4
  store ptr %0, ptr %2, align 8
  call void @llvm.dbg.declare(metadata ptr %2, metadata !159, metadata !DIExpression()), !dbg !160
  call void @llvm.dbg.declare(metadata ptr %3, metadata !161, metadata !DIExpression()), !dbg !162
  store i64 0, ptr %3, align 8, !dbg !162
  call void @llvm.dbg.declare(metadata ptr %4, metadata !163, metadata !DIExpression()), !dbg !165
  store i32 0, ptr %4, align 4, !dbg !165
  br label %5, !dbg !166

5:                                                ; preds = %16, %1
  %6 = load i32, ptr %4, align 4, !dbg !167
  %7 = icmp slt i32 %6, 3, !dbg !169
  br i1 %7, label %8, label %19, !dbg !170

8:                                                ; preds = %5
  %9 = load ptr, ptr %2, align 8, !dbg !171
  %10 = load i32, ptr %4, align 4, !dbg !172
  %11 = sext i32 %10 to i64, !dbg !171
  %12 = getelementptr inbounds i64, ptr %9, i64 %11, !dbg !171
  %13 = load i64, ptr %12, align 8, !dbg !171
  %14 = load i64, ptr %3, align 8, !dbg !173
  %15 = add nsw i64 %14, %13, !dbg !173
  store i64 %15, ptr %3, align 8, !dbg !173
  br label %16, !dbg !174

16:                                               ; preds = %8
  %17 = load i32, ptr %4, align 4, !dbg !175
  %18 = add nsw i32 %17, 1, !dbg !175
  store i32 %18, ptr %4, align 4, !dbg !175
  br label %5, !dbg !176, !llvm.loop !177

19:                                               ; preds = %5
  %20 = load i64, ptr %3, align 8, !dbg !179
  ret i64 %20, !dbg !180
}

; Function Attrs: nounwind
declare i32 @pthread_barrier_wait(ptr noundef) #2

declare void @pg_out(i64 noundef) #3

attributes #0 = { noinline nounwind optnone uwtable "frame-pointer"="all" "min-legal-vector-width"="0" "no-trapping-math"="true" "stack-protector-buffer-size"="8" "target-cpu"="x86-64" "target-features"="+cx8,+fxsr,+mmx,+sse,+sse2,+x87" "tune-cpu"="generic" }
attributes #1 = { nocallback nofree nosync nounwind speculatable willreturn memory(none) }
attributes #2 = { nounwind "frame-pointer"="all" "no-trapping-math"="true" "stack-protector-buffer-size"="8" "target-cpu"="x86-64" "target-features"="+cx8,+fxsr,+mmx,+sse,+sse2,+x87" "tune-cpu"="generic" }
attributes #3 = { "frame-pointer"="all" "no-trapping-math"="true" "stack-protector-buffer-size"="8" "target-cpu"="x86-64" "target-features"="+cx8,+fxsr,+mmx,+sse,+sse2,+x87" "tune-cpu"="generic" }
attributes #4 = { nounwind }

!llvm.dbg.cu = !{!2}
!llvm.module.flags = !{!29, !30, !31, !32, !33, !34, !35}
!llvm.ident = !{!36}

!0 = !DIGlobalVariableExpression(var: !1, expr: !DIExpression())
!1 = distinct !DIGlobalVariable(name: "barrier", scope: !2, file: !3, line: 11, type: !19, isLocal: true, isDefinition: true)
!2 = distinct !DICompileUnit(language: DW_LANG_C11, file: !3, producer: "Debian clang version 16.0.6 (15~deb12u1)", isOptimized: false, runtimeVersion: 0, emissionKind: FullDebug, retainedTypes: !4, globals: !8, splitDebugInlining: false, nameTableKind: None)
!3 = !DIFile(filename: "barrier.c", directory: ".", checksumkind: CSK_MD5, checksum: "83fb9616493f6cd01147800123a3d57d")
!4 = !{!5, !7}
!5 = !DIDerivedType(tag: DW_TAG_pointer_type, baseType: !6, size: 64)
!6 = !DIBasicType(name: "long", size: 64, encoding: DW_ATE_signed)
!7 = !DIDerivedType(tag: DW_TAG_pointer_type, baseType: null, size: 64)
!8 = !{!0, !9, !15}
!9 = !DIGlobalVariableExpression(var: !10, expr: !DIExpression())
!10 = distinct !DIGlobalVariable(name: "numbers", scope: !2, file: !3, line: 12, type: !11, isLocal: true, isDefinition: true)
!11 = !DICompositeType(tag: DW_TAG_array_type, baseType: !6, size: 384, elements: !12)
!12 = !{!13, !14}
!13 = !DISubrange(count: 2)
!14 = !DISubrange(count: 3)
!15 = !DIGlobalVariableExpression(var: !16, expr: !DIExpression())
!16 = distinct !DIGlobalVariable(name: "places", scope: !2, file: !3, line: 21, type: !17, isLocal: true, isDefinition: true)
!17 = !DICompositeType(tag: DW_TAG_array_type, baseType: !6, size: 192, elements: !18)
!18 = !{!14}
!19 = !DIDerivedType(tag: DW_TAG_typedef, name: "pthread_barrier_t", file: !20, line: 112, baseType: !21)
!20 = !DIFile(filename: "/usr/include/x86_64-linux-gnu/bits/pthreadtypes.h", directory: "", checksumkind: CSK_MD5, checksum: "735e3bf264ff9d8f5d95898b1692fbdb")
!21 = distinct !DICompositeType(tag: DW_TAG_union_type, file: !20, line: 108, size: 256, elements: !22)
!22 = !{!23, !28}
!23 = !DIDerivedType(tag: DW_TAG_member, name: "__size", scope: !21, file: !20, line: 110, baseType: !24, size: 256)
!24 = !DICompositeType(tag: DW_TAG_array_type, baseType: !25, size: 256, elements: !26)
!25 = !DIBasicType(name: "char", size: 8, encoding: DW_ATE_signed_char)
!26 = !{!27}
!27 = !DISubrange(count: 32)
!28 = !DIDerivedType(tag: DW_TAG_member, name: "__align", scope: !21, file: !20, line: 111, baseType: !6, size: 64)
!29 = !{i32 7, !"Dwarf Version", i32 5}
!30 = !{i32 2, !"Debug Info Version", i32 3}
!31 = !{i32 1, !"wchar_size", i32 4}
!32 = !{i32 8, !"PIC Level", i32 2}
!33 = !{i32 7, !"PIE Level", i32 2}
!34 = !{i32 7, !"uwtable", i32 2}
!35 = !{i32 7, !"frame-pointer", i32 2}
!36 = !{!"Debian clang version 16.0.6 (15~deb12u1)"}
!37 = distinct !DISubprogram(name: "main", scope: !3, file: !3, line: 35, type: !38, scopeLine: 35, flags: DIFlagPrototyped, spFlags: DISPFlagDefinition, unit: !2, retainedNodes: !41)
!38 = !DISubroutineType(types: !39)
!39 = !{!40}
!40 = !DIBasicType(name: "int", size: 32, encoding: DW_ATE_signed)
!41 = !{}
!42 = !DILocalVariable(name: "threads", scope: !37, file: !3, line: 36, type: !43)
!43 = !DICompositeType(tag: DW_TAG_array_type, baseType: !44, size: 192, elements: !18)
!44 = !DIDerivedType(tag: DW_TAG_typedef, name: "pthread_t", file: !20, line: 27, baseType: !45)
!45 = !DIBasicType(name: "unsigned long", size: 64, encoding: DW_ATE_unsigned)
!46 = !DILocation(line: 36, column: 15, scope: !37)
!47 = !DILocation(line: 37, column: 5, scope: !37)
!48 = !DILocalVariable(name: "t", scope: !49, file: !3, line: 38, type: !40)
!49 = distinct !DILexicalBlock(scope: !37, file: !3, line: 38, column: 5)
!50 = !DILocation(line: 38, column: 14, scope: !49)
!51 = !DILocation(line: 38, column: 10, scope: !49)
!52 = !DILocation(line: 38, column: 21, scope: !53)
!53 = distinct !DILexicalBlock(scope: !49, file: !3, line: 38, column: 5)
!54 = !DILocation(line: 38, column: 23, scope: !53)
!55 = !DILocation(line: 38, column: 5, scope: !49)
!56 = !DILocation(line: 39, column: 21, scope: !57)
!57 = distinct !DILexicalBlock(scope: !53, file: !3, line: 38, column: 39)
!58 = !DILocation(line: 39, column: 16, scope: !57)
!59 = !DILocation(line: 39, column: 9, scope: !57)
!60 = !DILocation(line: 39, column: 19, scope: !57)
!61 = !DILocation(line: 40, column: 31, scope: !57)
!62 = !DILocation(line: 40, column: 25, scope: !57)
!63 = !DILocation(line: 40, column: 20, scope: !57)
!64 = !DILocation(line: 40, column: 9, scope: !57)
!65 = !DILocation(line: 40, column: 23, scope: !57)
!66 = !DILocation(line: 41, column: 5, scope: !57)
!67 = !DILocation(line: 38, column: 35, scope: !53)
!68 = !DILocation(line: 38, column: 5, scope: !53)
!69 = distinct !{!69, !55, !70, !71}
!70 = !DILocation(line: 41, column: 5, scope: !49)
!71 = !{!"llvm.loop.mustprogress"}
!72 = !DILocalVariable(name: "t", scope: !73, file: !3, line: 42, type: !40)
!73 = distinct !DILexicalBlock(scope: !37, file: !3, line: 42, column: 5)
!74 = !DILocation(line: 42, column: 14, scope: !73)
!75 = !DILocation(line: 42, column: 10, scope: !73)
!76 = !DILocation(line: 42, column: 21, scope: !77)
!77 = distinct !DILexicalBlock(scope: !73, file: !3, line: 42, column: 5)
!78 = !DILocation(line: 42, column: 23, scope: !77)
!79 = !DILocation(line: 42, column: 5, scope: !73)
!80 = !DILocation(line: 43, column: 33, scope: !77)
!81 = !DILocation(line: 43, column: 25, scope: !77)
!82 = !DILocation(line: 43, column: 59, scope: !77)
!83 = !DILocation(line: 43, column: 52, scope: !77)
!84 = !DILocation(line: 43, column: 9, scope: !77)
!85 = !DILocation(line: 42, column: 35, scope: !77)
!86 = !DILocation(line: 42, column: 5, scope: !77)
!87 = distinct !{!87, !79, !88, !71}
!88 = !DILocation(line: 43, column: 61, scope: !73)
!89 = !DILocalVariable(name: "t", scope: !90, file: !3, line: 44, type: !40)
!90 = distinct !DILexicalBlock(scope: !37, file: !3, line: 44, column: 5)
!91 = !DILocation(line: 44, column: 14, scope: !90)
!92 = !DILocation(line: 44, column: 10, scope: !90)
!93 = !DILocation(line: 44, column: 21, scope: !94)
!94 = distinct !DILexicalBlock(scope: !90, file: !3, line: 44, column: 5)
!95 = !DILocation(line: 44, column: 23, scope: !94)
!96 = !DILocation(line: 44, column: 5, scope: !90)
!97 = !DILocation(line: 45, column: 30, scope: !94)
!98 = !DILocation(line: 45, column: 22, scope: !94)
!99 = !DILocation(line: 45, column: 9, scope: !94)
!100 = !DILocation(line: 44, column: 35, scope: !94)
!101 = !DILocation(line: 44, column: 5, scope: !94)
!102 = distinct !{!102, !96, !103, !71}
!103 = !DILocation(line: 45, column: 38, scope: !90)
!104 = !DILocation(line: 46, column: 5, scope: !37)
!105 = !DILocation(line: 47, column: 5, scope: !37)
!106 = distinct !DISubprogram(name: "worker", scope: !3, file: !3, line: 23, type: !107, scopeLine: 23, flags: DIFlagPrototyped, spFlags: DISPFlagLocalToUnit | DISPFlagDefinition, unit: !2, retainedNodes: !41)
!107 = !DISubroutineType(types: !108)
!108 = !{!7, !7}
!109 = !DILocalVariable(name: "place", arg: 1, scope: !106, file: !3, line: 23, type: !7)
!110 = !DILocation(line: 23, column: 27, scope: !106)
!111 = !DILocalVariable(name: "me", scope: !106, file: !3, line: 24, type: !6)
!112 = !DILocation(line: 24, column: 10, scope: !106)
!113 = !DILocation(line: 24, column: 24, scope: !106)
!114 = !DILocation(line: 24, column: 15, scope: !106)
!115 = !DILocalVariable(name: "round", scope: !116, file: !3, line: 25, type: !40)
!116 = distinct !DILexicalBlock(scope: !106, file: !3, line: 25, column: 5)
!117 = !DILocation(line: 25, column: 14, scope: !116)
!118 = !DILocation(line: 25, column: 10, scope: !116)
!119 = !DILocation(line: 25, column: 25, scope: !120)
!120 = distinct !DILexicalBlock(scope: !116, file: !3, line: 25, column: 5)
!121 = !DILocation(line: 25, column: 31, scope: !120)
!122 = !DILocation(line: 25, column: 5, scope: !116)
!123 = !DILocalVariable(name: "from", scope: !124, file: !3, line: 26, type: !5)
!124 = distinct !DILexicalBlock(scope: !120, file: !3, line: 25, column: 50)
!125 = !DILocation(line: 26, column: 15, scope: !124)
!126 = !DILocation(line: 26, column: 30, scope: !124)
!127 = !DILocation(line: 26, column: 36, scope: !124)
!128 = !DILocation(line: 26, column: 22, scope: !124)
!129 = !DILocalVariable(name: "to", scope: !124, file: !3, line: 26, type: !5)
!130 = !DILocation(line: 26, column: 43, scope: !124)
!131 = !DILocation(line: 26, column: 57, scope: !124)
!132 = !DILocation(line: 26, column: 63, scope: !124)
!133 = !DILocation(line: 26, column: 68, scope: !124)
!134 = !DILocation(line: 26, column: 48, scope: !124)
!135 = !DILocation(line: 27, column: 24, scope: !124)
!136 = !DILocation(line: 27, column: 18, scope: !124)
!137 = !DILocation(line: 27, column: 9, scope: !124)
!138 = !DILocation(line: 27, column: 12, scope: !124)
!139 = !DILocation(line: 27, column: 16, scope: !124)
!140 = !DILocation(line: 28, column: 13, scope: !141)
!141 = distinct !DILexicalBlock(scope: !124, file: !3, line: 28, column: 13)
!142 = !DILocation(line: 28, column: 44, scope: !141)
!143 = !DILocation(line: 28, column: 13, scope: !124)
!144 = !DILocation(line: 29, column: 20, scope: !141)
!145 = !DILocation(line: 29, column: 23, scope: !141)
!146 = !DILocation(line: 29, column: 13, scope: !141)
!147 = !DILocation(line: 30, column: 9, scope: !124)
!148 = !DILocation(line: 31, column: 5, scope: !124)
!149 = !DILocation(line: 25, column: 46, scope: !120)
!150 = !DILocation(line: 25, column: 5, scope: !120)
!151 = distinct !{!151, !122, !152, !71}
!152 = !DILocation(line: 31, column: 5, scope: !116)
!153 = !DILocation(line: 32, column: 5, scope: !106)
!154 = distinct !DISubprogram(name: "total", scope: !3, file: !3, line: 14, type: !155, scopeLine: 14, flags: DIFlagPrototyped, spFlags: DISPFlagLocalToUnit | DISPFlagDefinition, unit: !2, retainedNodes: !41)
!155 = !DISubroutineType(types: !156)
!156 = !{!6, !157}
!157 = !DIDerivedType(tag: DW_TAG_pointer_type, baseType: !158, size: 64)
!158 = !DIDerivedType(tag: DW_TAG_const_type, baseType: !6)
!159 = !DILocalVariable(name: "from", arg: 1, scope: !154, file: !3, line: 14, type: !157)
!160 = !DILocation(line: 14, column: 31, scope: !154)
!161 = !DILocalVariable(name: "sum", scope: !154, file: !3, line: 15, type: !6)
!162 = !DILocation(line: 15, column: 10, scope: !154)
!163 = !DILocalVariable(name: "i", scope: !164, file: !3, line: 16, type: !40)
!164 = distinct !DILexicalBlock(scope: !154, file: !3, line: 16, column: 5)
!165 = !DILocation(line: 16, column: 14, scope: !164)
!166 = !DILocation(line: 16, column: 10, scope: !164)
!167 = !DILocation(line: 16, column: 21, scope: !168)
!168 = distinct !DILexicalBlock(scope: !164, file: !3, line: 16, column: 5)
!169 = !DILocation(line: 16, column: 23, scope: !168)
!170 = !DILocation(line: 16, column: 5, scope: !164)
!171 = !DILocation(line: 17, column: 16, scope: !168)
!172 = !DILocation(line: 17, column: 21, scope: !168)
!173 = !DILocation(line: 17, column: 13, scope: !168)
!174 = !DILocation(line: 17, column: 9, scope: !168)
!175 = !DILocation(line: 16, column: 35, scope: !168)
!176 = !DILocation(line: 16, column: 5, scope: !168)
!177 = distinct !{!177, !170, !178, !71}
!178 = !DILocation(line: 17, column: 22, scope: !164)
!179 = !DILocation(line: 18, column: 12, scope: !154)
!180 = !DILocation(line: 18, column: 5, scope: !154)
