; What the compiled code wants for a request for memory: whether it is there, and its address, in two registers. Nothing proves this file.
; A function in C returns such a pair through a pointer on Windows, so these two are LLVM IR.
declare ptr @windows_alloc(i64)
declare ptr @windows_realloc(ptr, i64)

define { i64, i64 } @rattle_alloc(i64 %size, i64 %alignment) nounwind {
  %start = call ptr @windows_alloc(i64 %size)
  %block = call { i64, i64 } @block_at(ptr %start)
  ret { i64, i64 } %block
}

define { i64, i64 } @rattle_realloc(ptr %block, i64 %old_size, i64 %size, i64 %alignment) nounwind {
  %start = call ptr @windows_realloc(ptr %block, i64 %size)
  %new = call { i64, i64 } @block_at(ptr %start)
  ret { i64, i64 } %new
}

; As in block.h.
define internal { i64, i64 } @block_at(ptr %start) alwaysinline nounwind {
  %is_there = icmp ne ptr %start, null
  %first = zext i1 %is_there to i64
  %number = ptrtoint ptr %start to i64
  %second = select i1 %is_there, i64 %number, i64 16
  %half = insertvalue { i64, i64 } poison, i64 %first, 0
  %both = insertvalue { i64, i64 } %half, i64 %second, 1
  ret { i64, i64 } %both
}
