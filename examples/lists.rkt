(define (square x) (* x x))

(define (sum list)
(if (empty? list) 0
      (+ (first list) (sum (rest list)))))
() (  ) (
)
