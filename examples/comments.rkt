#!/usr/bin/env racket
#lang racket/base
; Each kind of comment, in each place where one may stand.

#| A block comment may hold another, #| as this one, |#
   and more than one line. |#
(define (sum x #:and [y 0])   ; behind a datum
  ; on a line of its own
  (+ x y #;(* x y) #| in a line |# 1
     #;#;two data 2))  ; behind a list



( ; behind an opener
 sum 1

 #:and ; behind a keyword
 2     ; before a closer
 )

;; in a row,
;; and one more
   #;(sum #;very 1) #;(sum 2)

(list '; behind a quote
      sum #; ; behind the mark of a datum comment
      (sum 1) ; behind that comment

      ; before a closer, on a line of its own

      )
; at the end
