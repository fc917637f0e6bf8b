#lang racket/base
; Lines end in CR LF here, and in LF in the text laid out, but for the one within the string.


(define text "One line,
 and one more.") ; a string
(define (f x)

  (list x ; an argument
        text))
