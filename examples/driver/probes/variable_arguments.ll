; ModuleID = 'driver/probes/variable_arguments.c'
source_filename = "driver/probes/variable_arguments.c"
target datalayout = "e-m:e-p270:32:32-p271:32:32-p272:64:64-i64:64-f80:128-n8:16:32:64-S128"
target triple = "x86_64-pc-linux-gnu"

%struct.__va_list_tag = type { i32, i32, ptr, ptr }

; Function Attrs: noinline nounwind optnone uwtable
define dso_local i32 @main() #0 !dbg !10 {
  %1 = alloca i32, align 4
  store i32 0, ptr %1, align 4
  %2 = call i32 (i32, ...) @sum(i32 noundef 2, i32 noundef 3, i32 noundef 4), !dbg !15
  %3 = sext i32 %2 to i64, !dbg !15
  call void @pg_out(i64 noundef %3), !dbg !16
  ret i32 0, !dbg !17
}

declare void @pg_out(i64 noundef) #1

; Function Attrs: noinline nounwind optnone uwtable
define internal i32 @sum(i32 noundef %0, ...) #0 !dbg !18 {
  %2 = alloca i32, align 4
  %3 = alloca [1 x %struct.__va_list_tag], align 16
  %4 = alloca i32, align 4
  store i32 %0, ptr %2, align 4
  call void @llvm.dbg.declare(metadata ptr %2, metadata !21, metadata !DIExpression()), !dbg !22
  call void @llvm.dbg.declare(metadata ptr %3, metadata !23, metadata !DIExpression()), !dbg !39
  %5 = getelementptr inbounds [1 x %struct.__va_list_tag], ptr %3, i64 0, i64 0, !dbg !40
  call void @llvm.va_start(ptr %5), !dbg !40
  call void @llvm.dbg.declare(metadata ptr %4, metadata !41, metadata !DIExpression()), !dbg !42
  store i32 0, ptr %4, align 4, !dbg !42
  br label %6, !dbg !43

6:                                                ; preds = %24, %1
  %7 = load i32, ptr %2, align 4, !dbg !44
  %8 = add nsw i32 %7, -1, !dbg !44
  store i32 %8, ptr %2, align 4, !dbg !44
  %9 = icmp ne i32 %7, 0, !dbg !43
  br i1 %9, label %10, label %29, !dbg !43

10:                                               ; preds = %6
  %11 = getelementptr inbounds [1 x %struct.__va_list_tag], ptr %3, i64 0, i64 0, !dbg !45
  %12 = getelementptr inbounds %struct.__va_list_tag, ptr %11, i32 0, i32 0, !dbg !45
  %13 = load i32, ptr %12, align 16, !dbg !45
  %14 = icmp ule i32 %13, 40, !dbg !45
  br i1 %14, label %15, label %20, !dbg !45

15:                                               ; preds = %10
  %16 = getelementptr inbounds %struct.__va_list_tag, ptr %11, i32 0, i32 3, !dbg !45
  %17 = load ptr, ptr %16, align 16, !dbg !45
  %18 = getelementptr i8, ptr %17, i32 %13, !dbg !45
  %19 = add i32 %13, 8, !dbg !45
  store i32 %19, ptr %12, align 16, !dbg !45
  br label %24, !dbg !45

20:                                               ; preds = %10
  %21 = getelementptr inbounds %struct.__va_list_tag, ptr %11, i32 0, i32 2, !dbg !45
  %22 = load ptr, ptr %21, align 8, !dbg !45
  %23 = getelementptr i8, ptr %22, i32 8, !dbg !45
  store ptr %23, ptr %21, align 8, !dbg !45
  br label %24, !dbg !45

24:                                               ; preds = %20, %15
  %25 = phi ptr [ %18, %15 ], [ %22, %20 ], !dbg !45
  %26 = load i32, ptr %25, align 4, !dbg !45
  %27 = load i32, ptr %4, align 4, !dbg !46
  %28 = add nsw i32 %27, %26, !dbg !46
  store i32 %28, ptr %4, align 4, !dbg !46
  br label %6, !dbg !43, !llvm.loop !47

29:                                               ; preds = %6
  %30 = getelementptr inbounds [1 x %struct.__va_list_tag], ptr %3, i64 0, i64 0, !dbg !49
  call void @llvm.va_end(ptr %30), !dbg !49
  %31 = load i32, ptr %4, align 4, !dbg !50
  ret i32 %31, !dbg !51
}

; Function Attrs: nocallback nofree nosync nounwind speculatable willreturn memory(none)
declare void @llvm.dbg.declare(metadata, metadata, metadata) #2

; Function Attrs: nocallback nofree nosync nounwind willreturn
declare void @llvm.va_start(ptr) #3

; Function Attrs: nocallback nofree nosync nounwind willreturn
declare void @llvm.va_end(ptr) #3

attributes #0 = { noinline nounwind optnone uwtable "frame-pointer"="all" "min-legal-vector-width"="0" "no-trapping-math"="true" "stack-protector-buffer-size"="8" "target-cpu"="x86-64" "target-features"="+cx8,+fxsr,+mmx,+sse,+sse2,+x87" "tune-cpu"="generic" }
attributes #1 = { "frame-pointer"="all" "no-trapping-math"="true" "stack-protector-buffer-size"="8" "target-cpu"="x86-64" "target-features"="+cx8,+fxsr,+mmx,+sse,+sse2,+x87" "tune-cpu"="generic" }
attributes #2 = { nocallback nofree nosync nounwind speculatable willreturn memory(none) }
attributes #3 = { nocallback nofree nosync nounwind willreturn }

!llvm.dbg.cu = !{!0}
!llvm.module.flags = !{!2, !3, !4, !5, !6, !7, !8}
!llvm.ident = !{!9}

!0 = distinct !DICompileUnit(language: DW_LANG_C11, file: !1, producer: "Debian clang version 16.0.6 (15~deb12u1)", isOptimized: false, runtimeVersion: 0, emissionKind: FullDebug, splitDebugInlining: false, nameTableKind: None)
!1 = !DIFile(filename: "driver/probes/variable_arguments.c", directory: ".", checksumkind: CSK_MD5, checksum: "a8dbfe6e109b6c02c83fc036e6b712c6")
!2 = !{i32 7, !"Dwarf Version", i32 5}
!3 = !{i32 2, !"Debug Info Version", i32 3}
!4 = !{i32 1, !"wchar_size", i32 4}
!5 = !{i32 8, !"PIC Level", i32 2}
!6 = !{i32 7, !"PIE Level", i32 2}
!7 = !{i32 7, !"uwtable", i32 2}
!8 = !{i32 7, !"frame-pointer", i32 2}
!9 = !{!"Debian clang version 16.0.6 (15~deb12u1)"}
!10 = distinct !DISubprogram(name: "main", scope: !1, file: !1, line: 12, type: !11, scopeLine: 12, flags: DIFlagPrototyped, spFlags: DISPFlagDefinition, unit: !0, retainedNodes: !14)
!11 = !DISubroutineType(types: !12)
!12 = !{!13}
!13 = !DIBasicType(name: "int", size: 32, encoding: DW_ATE_signed)
!14 = !{}
!15 = !DILocation(line: 13, column: 8, scope: !10)
!16 = !DILocation(line: 13, column: 1, scope: !10)
!17 = !DILocation(line: 14, column: 1, scope: !10)
!18 = distinct !DISubprogram(name: "sum", scope: !1, file: !1, line: 3, type: !19, scopeLine: 3, flags: DIFlagPrototyped, spFlags: DISPFlagLocalToUnit | DISPFlagDefinition, unit: !0, retainedNodes: !14)
!19 = !DISubroutineType(types: !20)
!20 = !{!13, !13, null}
!21 = !DILocalVariable(name: "n", arg: 1, scope: !18, file: !1, line: 3, type: !13)
!22 = !DILocation(line: 3, column: 20, scope: !18)
!23 = !DILocalVariable(name: "l", scope: !18, file: !1, line: 4, type: !24)
!24 = !DIDerivedType(tag: DW_TAG_typedef, name: "va_list", file: !25, line: 22, baseType: !26)
!25 = !DIFile(filename: "/usr/lib/llvm-16/lib/clang/16/include/stdarg.h", directory: "", checksumkind: CSK_MD5, checksum: "4c819f80dd915987182e9ab226e27a5a")
!26 = !DIDerivedType(tag: DW_TAG_typedef, name: "__builtin_va_list", file: !27, baseType: !28)
!27 = !DIFile(filename: "driver/probes/variable_arguments.c", directory: ".")
!28 = !DICompositeType(tag: DW_TAG_array_type, baseType: !29, size: 192, elements: !37)
!29 = distinct !DICompositeType(tag: DW_TAG_structure_type, name: "__va_list_tag", size: 192, elements: !30)
!30 = !{!31, !33, !34, !36}
!31 = !DIDerivedType(tag: DW_TAG_member, name: "gp_offset", scope: !29, file: !27, line: 4, baseType: !32, size: 32)
!32 = !DIBasicType(name: "unsigned int", size: 32, encoding: DW_ATE_unsigned)
!33 = !DIDerivedType(tag: DW_TAG_member, name: "fp_offset", scope: !29, file: !27, line: 4, baseType: !32, size: 32, offset: 32)
!34 = !DIDerivedType(tag: DW_TAG_member, name: "overflow_arg_area", scope: !29, file: !27, line: 4, baseType: !35, size: 64, offset: 64)
!35 = !DIDerivedType(tag: DW_TAG_pointer_type, baseType: null, size: 64)
!36 = !DIDerivedType(tag: DW_TAG_member, name: "reg_save_area", scope: !29, file: !27, line: 4, baseType: !35, size: 64, offset: 128)
!37 = !{!38}
!38 = !DISubrange(count: 1)
!39 = !DILocation(line: 4, column: 9, scope: !18)
!40 = !DILocation(line: 5, column: 1, scope: !18)
!41 = !DILocalVariable(name: "s", scope: !18, file: !1, line: 6, type: !13)
!42 = !DILocation(line: 6, column: 5, scope: !18)
!43 = !DILocation(line: 7, column: 1, scope: !18)
!44 = !DILocation(line: 7, column: 9, scope: !18)
!45 = !DILocation(line: 8, column: 10, scope: !18)
!46 = !DILocation(line: 8, column: 7, scope: !18)
!47 = distinct !{!47, !43, !45, !48}
!48 = !{!"llvm.loop.mustprogress"}
!49 = !DILocation(line: 9, column: 1, scope: !18)
!50 = !DILocation(line: 10, column: 8, scope: !18)
!51 = !DILocation(line: 10, column: 1, scope: !18)
