#lang racket/base
(require racket/list "rows.rkt")
(provide routes reply)


(define-route (get "/hello") (text "你好"))
(define-route (post "/rows" #:body row)
  (with-rows ([rows (all-rows 'rows)] [kept (filter kept? (all-rows 'kept))])
     (add! rows row) (reply (list (length rows) (length kept)))))

(define (reply answer) (reply-case (status-of answer)
   [(200 201) (text answer)] [(404) (text "not there")] [else (fail answer)]))

(test-that "a row is added"
   (check-same (length (rows-of (post "/rows" #:body '(1 2 3)))) (add1 before)))
