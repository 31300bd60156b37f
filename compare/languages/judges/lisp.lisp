;;; The judge of Common Lisp: its reader. Ratios have no value.
(defun shown (value)
  (etypecase value
    (integer (format nil "~d" value))
    (single-float (format nil "~,,,,,,'eef" value))
    (double-float (format nil "d~16,'0x" (logior (ash (ldb (byte 32 0) (sb-kernel:double-float-high-bits value)) 32)
                                                 (sb-kernel:double-float-low-bits value))))
    (number "")))

(defun answer (text)
  (with-input-from-string (in text)
    (handler-case
        (let ((value (read-preserving-whitespace in)))
          (if (numberp value) (format nil "~d ~a" (file-position in) (shown value)) "-"))
      ;; No float has the value.
      (sb-kernel:reader-impossible-number-error () (format nil "~d -" (file-position in)))
      (error () "-"))))

(setf *read-eval* nil sb-impl::*default-external-format* :latin-1 *error-output* (make-broadcast-stream))
(let ((in (sb-sys:make-fd-stream 0 :external-format :latin-1 :buffering :full)))
  (loop for text = (read-line in nil) while text do (write-line (answer text))))
