;;; hmc-flymake.el --- Diagnostics by hmc in Emacs 27 and later  -*- lexical-binding: t -*-
;; Put this file on the load-path, and write (require 'hmc-flymake) and (add-hook 'haskell-mode-hook #'hmc-flymake-setup) into the init file.
;; The set of modules is all *.hs of the buffer's folder. The buffer is read from memory, through standard input, so it needn't be saved.
(require 'flymake)
(require 'json)
(require 'seq)

(defvar hmc-program "hmc" "The program hmc.")
(defvar-local hmc-flymake--process nil)

(defun hmc-flymake--diagnostic (buffer object)
  "The diagnostic of OBJECT, a message about BUFFER."
  (with-current-buffer buffer
    (save-excursion
      (save-restriction
        (widen)
        (let* ((position (lambda (place)
                           (goto-char (point-min))
                           (forward-line (1- (alist-get 'line place)))
                           (min (point-max) (+ (point) (1- (alist-get 'character place))))))
               (start (funcall position (alist-get 'start object)))
               (end (funcall position (alist-get 'end object))))
          (flymake-make-diagnostic buffer start (max end (min (point-max) (1+ start)))
                                   (if (equal (alist-get 'level object) "error") :error :note)
                                   (concat (alist-get 'text object) " [" (alist-get 'kind object) "]")))))))

(defun hmc-flymake (report &rest _)
  "Check the buffer with hmc, and give REPORT its diagnostics."
  (when (process-live-p hmc-flymake--process) (kill-process hmc-flymake--process))
  (let* ((buffer (current-buffer))
         (name (or (buffer-file-name) "buffer.hs"))
         (others (remove name (directory-files (file-name-directory (expand-file-name name)) t "\\`[^.].*\\.hs\\'")))
         (errors (generate-new-buffer " *hmc*")))
    (setq hmc-flymake--process
          (make-process
           :name "hmc" :noquery t :connection-type 'pipe :buffer nil :stderr errors
           :command `(,hmc-program "--message-format" "json" "--stdin-name" ,name "--" "-" ,@others)
           :sentinel
           (lambda (process _)
             (unless (process-live-p process)
               (let ((pipe (get-buffer-process errors))) (while (accept-process-output pipe 0.2)))
               (when (and (buffer-live-p buffer) (eq process (buffer-local-value 'hmc-flymake--process buffer)))
                 (with-current-buffer errors
                   (let* ((lines (seq-filter (lambda (line) (string-prefix-p "{" line)) (split-string (buffer-string) "\n")))
                          (objects (mapcar (lambda (line) (let ((json-object-type 'alist)) (json-read-from-string line))) lines)))
                     (if (seq-some (lambda (it) (equal (alist-get 'level it) "end")) objects)
                         (funcall report
                                  (mapcar (lambda (it) (hmc-flymake--diagnostic buffer it))
                                          (seq-filter (lambda (it) (equal (alist-get 'file it) name)) objects)))
                       (funcall report :panic :explanation (string-trim (buffer-string)))))))
               (kill-buffer errors)))))
    (process-send-string hmc-flymake--process (save-restriction (widen) (buffer-substring-no-properties (point-min) (point-max))))
    (process-send-eof hmc-flymake--process)))

(defun hmc-flymake-setup ()
  "Check this buffer with hmc while it is edited."
  (add-hook 'flymake-diagnostic-functions #'hmc-flymake nil t)
  (flymake-mode 1))

(provide 'hmc-flymake)
;;; hmc-flymake.el ends here
