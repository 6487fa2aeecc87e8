source_filename = "quicksort.c"
target datalayout = "e-m:e-p270:32:32-p271:32:32-p272:64:64-i64:64-f80:128-n8:16:32:64-S128"
target triple = "x86_64-pc-linux-gnu"

%struct.part = type { i64, i64, i32 }

@numbers = internal global [512 x i64] zeroinitializer, align 16

define dso_local i32 @main() #0 {
v.0:
  %v.1 = alloca i32, align 4
  %v.2 = alloca i64, align 8
  %v.3 = alloca %struct.part, align 8
  %v.4 = alloca i64, align 8
  store i32 0, ptr %v.1, align 4
  store i64 0, ptr %v.2, align 8
  br label %v.5
v.5:
  %v.6 = load i64, ptr %v.2, align 8
  %v.7 = call i64 @pg_in_len()
  %v.8 = icmp slt i64 %v.6, %v.7
  br i1 %v.8, label %v.9, label %v.17
v.9:
  %v.10 = load i64, ptr %v.2, align 8
  %v.11 = call i64 @pg_in(i64 noundef %v.10)
  %v.12 = load i64, ptr %v.2, align 8
  %v.13 = getelementptr inbounds [512 x i64], ptr @numbers, i64 0, i64 %v.12
  store i64 %v.11, ptr %v.13, align 8
  br label %v.14
v.14:
  %v.15 = load i64, ptr %v.2, align 8
  %v.16 = add nsw i64 %v.15, 1
  store i64 %v.16, ptr %v.2, align 8
  br label %v.5, !llvm.loop !6
v.17:
  %v.18 = getelementptr inbounds %struct.part, ptr %v.3, i32 0, i32 0
  store i64 0, ptr %v.18, align 8
  %v.19 = getelementptr inbounds %struct.part, ptr %v.3, i32 0, i32 1
  %v.20 = call i64 @pg_in_len()
  store i64 %v.20, ptr %v.19, align 8
  %v.21 = getelementptr inbounds %struct.part, ptr %v.3, i32 0, i32 2
  store i32 0, ptr %v.21, align 8
  %v.22 = call ptr @sort(ptr noundef %v.3)
  store i64 0, ptr %v.4, align 8
  br label %v.23
v.23:
  %v.24 = load i64, ptr %v.4, align 8
  %v.25 = call i64 @pg_in_len()
  %v.26 = icmp slt i64 %v.24, %v.25
  br i1 %v.26, label %v.27, label %v.34
v.27:
  %v.28 = load i64, ptr %v.4, align 8
  %v.29 = getelementptr inbounds [512 x i64], ptr @numbers, i64 0, i64 %v.28
  %v.30 = load i64, ptr %v.29, align 8
  call void @pg_out(i64 noundef %v.30)
  br label %v.31
v.31:
  %v.32 = load i64, ptr %v.4, align 8
  %v.33 = add nsw i64 %v.32, 1
  store i64 %v.33, ptr %v.4, align 8
  br label %v.23, !llvm.loop !8
v.34:
  ret i32 0
}

define internal ptr @sort(ptr noundef %v.0) #0 {
v.1:
  %v.2 = alloca ptr, align 8
  %v.3 = alloca ptr, align 8
  %v.4 = alloca ptr, align 8
  %v.5 = alloca i64, align 8
  %v.6 = alloca %struct.part, align 8
  %v.7 = alloca %struct.part, align 8
  %v.8 = alloca i64, align 8
  store ptr %v.0, ptr %v.3, align 8
  %v.9 = load ptr, ptr %v.3, align 8
  store ptr %v.9, ptr %v.4, align 8
  %v.10 = load ptr, ptr %v.4, align 8
  %v.11 = getelementptr inbounds %struct.part, ptr %v.10, i32 0, i32 1
  %v.12 = load i64, ptr %v.11, align 8
  %v.13 = load ptr, ptr %v.4, align 8
  %v.14 = getelementptr inbounds %struct.part, ptr %v.13, i32 0, i32 0
  %v.15 = load i64, ptr %v.14, align 8
  %v.16 = sub nsw i64 %v.12, %v.15
  %v.17 = icmp slt i64 %v.16, 2
  br i1 %v.17, label %v.18, label %v.19
v.18:
  store ptr null, ptr %v.2, align 8
  br label %v.63
v.19:
  %v.20 = load ptr, ptr %v.4, align 8
  %v.21 = getelementptr inbounds %struct.part, ptr %v.20, i32 0, i32 0
  %v.22 = load i64, ptr %v.21, align 8
  %v.23 = load ptr, ptr %v.4, align 8
  %v.24 = getelementptr inbounds %struct.part, ptr %v.23, i32 0, i32 1
  %v.25 = load i64, ptr %v.24, align 8
  %v.26 = call i64 @divide(i64 noundef %v.22, i64 noundef %v.25)
  store i64 %v.26, ptr %v.5, align 8
  %v.27 = getelementptr inbounds %struct.part, ptr %v.6, i32 0, i32 0
  %v.28 = load ptr, ptr %v.4, align 8
  %v.29 = getelementptr inbounds %struct.part, ptr %v.28, i32 0, i32 0
  %v.30 = load i64, ptr %v.29, align 8
  store i64 %v.30, ptr %v.27, align 8
  %v.31 = getelementptr inbounds %struct.part, ptr %v.6, i32 0, i32 1
  %v.32 = load i64, ptr %v.5, align 8
  store i64 %v.32, ptr %v.31, align 8
  %v.33 = getelementptr inbounds %struct.part, ptr %v.6, i32 0, i32 2
  %v.34 = load ptr, ptr %v.4, align 8
  %v.35 = getelementptr inbounds %struct.part, ptr %v.34, i32 0, i32 2
  %v.36 = load i32, ptr %v.35, align 8
  %v.37 = add nsw i32 %v.36, 1
  store i32 %v.37, ptr %v.33, align 8
  %v.38 = getelementptr inbounds %struct.part, ptr %v.7, i32 0, i32 0
  %v.39 = load i64, ptr %v.5, align 8
  %v.40 = add nsw i64 %v.39, 1
  store i64 %v.40, ptr %v.38, align 8
  %v.41 = getelementptr inbounds %struct.part, ptr %v.7, i32 0, i32 1
  %v.42 = load ptr, ptr %v.4, align 8
  %v.43 = getelementptr inbounds %struct.part, ptr %v.42, i32 0, i32 1
  %v.44 = load i64, ptr %v.43, align 8
  store i64 %v.44, ptr %v.41, align 8
  %v.45 = getelementptr inbounds %struct.part, ptr %v.7, i32 0, i32 2
  %v.46 = load ptr, ptr %v.4, align 8
  %v.47 = getelementptr inbounds %struct.part, ptr %v.46, i32 0, i32 2
  %v.48 = load i32, ptr %v.47, align 8
  %v.49 = add nsw i32 %v.48, 1
  store i32 %v.49, ptr %v.45, align 8
  %v.50 = load ptr, ptr %v.4, align 8
  %v.51 = getelementptr inbounds %struct.part, ptr %v.50, i32 0, i32 2
  %v.52 = load i32, ptr %v.51, align 8
  %v.53 = icmp slt i32 %v.52, 2
  br i1 %v.53, label %v.54, label %v.59
v.54:
  %v.55 = call i32 @pthread_create(ptr noundef %v.8, ptr noundef null, ptr noundef @sort, ptr noundef %v.6) #3
  %v.56 = call ptr @sort(ptr noundef %v.7)
  %v.57 = load i64, ptr %v.8, align 8
  %v.58 = call i32 @pthread_join(i64 noundef %v.57, ptr noundef null)
  br label %v.62
v.59:
  %v.60 = call ptr @sort(ptr noundef %v.6)
  %v.61 = call ptr @sort(ptr noundef %v.7)
  br label %v.62
v.62:
  store ptr null, ptr %v.2, align 8
  br label %v.63
v.63:
  %v.64 = load ptr, ptr %v.2, align 8
  ret ptr %v.64
}

define internal i64 @divide(i64 noundef %v.0, i64 noundef %v.1) #0 {
v.2:
  %v.3 = alloca i64, align 8
  %v.4 = alloca i64, align 8
  %v.5 = alloca i64, align 8
  %v.6 = alloca i64, align 8
  store i64 %v.0, ptr %v.3, align 8
  store i64 %v.1, ptr %v.4, align 8
  %v.7 = load i64, ptr %v.3, align 8
  store i64 %v.7, ptr %v.5, align 8
  %v.8 = load i64, ptr %v.3, align 8
  %v.9 = load i64, ptr %v.4, align 8
  %v.10 = add nsw i64 %v.8, %v.9
  %v.11 = sdiv i64 %v.10, 2
  %v.12 = load i64, ptr %v.4, align 8
  %v.13 = sub nsw i64 %v.12, 1
  call void @swap(i64 noundef %v.11, i64 noundef %v.13)
  %v.14 = load i64, ptr %v.3, align 8
  store i64 %v.14, ptr %v.6, align 8
  br label %v.15
v.15:
  %v.16 = load i64, ptr %v.6, align 8
  %v.17 = load i64, ptr %v.4, align 8
  %v.18 = sub nsw i64 %v.17, 1
  %v.19 = icmp slt i64 %v.16, %v.18
  br i1 %v.19, label %v.20, label %v.37
v.20:
  %v.21 = load i64, ptr %v.6, align 8
  %v.22 = getelementptr inbounds [512 x i64], ptr @numbers, i64 0, i64 %v.21
  %v.23 = load i64, ptr %v.22, align 8
  %v.24 = load i64, ptr %v.4, align 8
  %v.25 = sub nsw i64 %v.24, 1
  %v.26 = getelementptr inbounds [512 x i64], ptr @numbers, i64 0, i64 %v.25
  %v.27 = load i64, ptr %v.26, align 8
  %v.28 = icmp slt i64 %v.23, %v.27
  br i1 %v.28, label %v.29, label %v.33
v.29:
  %v.30 = load i64, ptr %v.6, align 8
  %v.31 = load i64, ptr %v.5, align 8
  %v.32 = add nsw i64 %v.31, 1
  store i64 %v.32, ptr %v.5, align 8
  call void @swap(i64 noundef %v.30, i64 noundef %v.31)
  br label %v.33
v.33:
  br label %v.34
v.34:
  %v.35 = load i64, ptr %v.6, align 8
  %v.36 = add nsw i64 %v.35, 1
  store i64 %v.36, ptr %v.6, align 8
  br label %v.15, !llvm.loop !9
v.37:
  %v.38 = load i64, ptr %v.5, align 8
  %v.39 = load i64, ptr %v.4, align 8
  %v.40 = sub nsw i64 %v.39, 1
  call void @swap(i64 noundef %v.38, i64 noundef %v.40)
  %v.41 = load i64, ptr %v.5, align 8
  ret i64 %v.41
}

define internal void @swap(i64 noundef %v.0, i64 noundef %v.1) #0 {
v.2:
  %v.3 = alloca i64, align 8
  %v.4 = alloca i64, align 8
  %v.5 = alloca i64, align 8
  store i64 %v.0, ptr %v.3, align 8
  store i64 %v.1, ptr %v.4, align 8
  %v.6 = load i64, ptr %v.3, align 8
  %v.7 = getelementptr inbounds [512 x i64], ptr @numbers, i64 0, i64 %v.6
  %v.8 = load i64, ptr %v.7, align 8
  store i64 %v.8, ptr %v.5, align 8
  %v.9 = load i64, ptr %v.4, align 8
  %v.10 = getelementptr inbounds [512 x i64], ptr @numbers, i64 0, i64 %v.9
  %v.11 = load i64, ptr %v.10, align 8
  %v.12 = load i64, ptr %v.3, align 8
  %v.13 = getelementptr inbounds [512 x i64], ptr @numbers, i64 0, i64 %v.12
  store i64 %v.11, ptr %v.13, align 8
  %v.14 = load i64, ptr %v.5, align 8
  %v.15 = load i64, ptr %v.4, align 8
  %v.16 = getelementptr inbounds [512 x i64], ptr @numbers, i64 0, i64 %v.15
  store i64 %v.14, ptr %v.16, align 8
  ret void
}

declare i64 @pg_in_len() #1
declare i64 @pg_in(i64 noundef) #1
declare void @pg_out(i64 noundef) #1
declare i32 @pthread_create(ptr noundef, ptr noundef, ptr noundef, ptr noundef) #2
declare i32 @pthread_join(i64 noundef, ptr noundef) #1

attributes #0 = { noinline nounwind optnone uwtable "frame-pointer"="all" "min-legal-vector-width"="0" "no-trapping-math"="true" "stack-protector-buffer-size"="8" "target-cpu"="x86-64" "target-features"="+cx8,+fxsr,+mmx,+sse,+sse2,+x87" "tune-cpu"="generic" }
attributes #1 = { "frame-pointer"="all" "no-trapping-math"="true" "stack-protector-buffer-size"="8" "target-cpu"="x86-64" "target-features"="+cx8,+fxsr,+mmx,+sse,+sse2,+x87" "tune-cpu"="generic" }
attributes #2 = { nounwind "frame-pointer"="all" "no-trapping-math"="true" "stack-protector-buffer-size"="8" "target-cpu"="x86-64" "target-features"="+cx8,+fxsr,+mmx,+sse,+sse2,+x87" "tune-cpu"="generic" }
attributes #3 = { nounwind }
!llvm.module.flags = !{!0, !1, !2, !3, !4}
!llvm.ident = !{!5}
!0 = !{i32 1, !"wchar_size", i32 4}
!1 = !{i32 8, !"PIC Level", i32 2}
!2 = !{i32 7, !"PIE Level", i32 2}
!3 = !{i32 7, !"uwtable", i32 2}
!4 = !{i32 7, !"frame-pointer", i32 2}
!5 = !{!"Debian clang version 16.0.6 (15~deb12u1)"}
!6 = distinct !{!6, !7}
!7 = !{!"llvm.loop.mustprogress"}
!8 = distinct !{!8, !7}
!9 = distinct !{!9, !7}
