#lang racket/base
(require (for-syntax racket/base))
; A prefix stands directly before its datum, and a dot before the last datum of its list.
(define n 2)
(define @rest '(3 4))

'name ''name '( 1 . 2 ) '(1 2 . (3 4))   ; four data
`(1 ,n ,@@rest) `(1 , @rest)             ; the second holds a list
`(outer `(inner ,(kept ,n ,@',(list n))) . ,n)
(n . < . 3)
(if (n . > . 3) 'more
    '|3 or less|)

(define-syntax (twice stx)
  (syntax-case stx ()
    [(_ e) #`(list #,#'e #,@(list #'e))]
    [(_ . @more) #`(list #, #'@more)]))

#(1 n) '#&n '[square] '{curly (round)}
#hash((a . 1) ("b" . #\b)) '#s(point n 2)
'#;no yes '
  yes
