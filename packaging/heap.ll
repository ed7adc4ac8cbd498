; The heap of the library and of the programs on Windows: packaging/heap.c says what each does. Its answers come back in two
; registers there, as the proved module takes them, which no C compiler does for a struct of 16 bytes.
target datalayout = "e-m:w-p270:32:32-p271:32:32-p272:64:64-i64:64-i128:128-f80:128-n8:16:32:64-S128"
target triple = "x86_64-w64-windows-gnu"

@nothing = internal global i8 0

declare ptr @malloc(i64)
declare ptr @realloc(ptr, i64)
declare void @free(ptr)

; Whether there is memory, and where; never null, also where there is none.
define internal { i64, i64 } @answer(ptr %at) {
  %is_there = icmp ne ptr %at, null
  %told = zext i1 %is_there to i64
  %never_null = select i1 %is_there, ptr %at, ptr @nothing
  %where = ptrtoint ptr %never_null to i64
  %first = insertvalue { i64, i64 } undef, i64 %told, 0
  %both = insertvalue { i64, i64 } %first, i64 %where, 1
  ret { i64, i64 } %both
}

; Memory of so many bytes; of 0 bytes, as many as the alignment, which divides 16 and is malloc's own.
define internal i64 @room(i64 %size, i64 %alignment) {
  %is_empty = icmp eq i64 %size, 0
  %room = select i1 %is_empty, i64 %alignment, i64 %size
  ret i64 %room
}

define { i64, i64 } @rattle_alloc(i64 %size, i64 %alignment) {
  %room = call i64 @room(i64 %size, i64 %alignment)
  %at = call ptr @malloc(i64 %room)
  %tried = call { i64, i64 } @answer(ptr %at)
  ret { i64, i64 } %tried
}

define { i64, i64 } @rattle_realloc(ptr %old, i64 %kept, i64 %size, i64 %alignment) {
  %room = call i64 @room(i64 %size, i64 %alignment)
  %at = call ptr @realloc(ptr %old, i64 %room)
  %tried = call { i64, i64 } @answer(ptr %at)
  ret { i64, i64 } %tried
}

define void @rattle_dealloc(ptr %at) {
  call void @free(ptr %at)
  ret void
}
