; The judge of Clojure: its reader. Ratios have no value.
(defn shown [value]
  (cond (integer? value) (str (biginteger value))
        (ratio? value) ""
        :else (format "d%016x" (Double/doubleToRawLongBits (double value)))))

(defn answer [text]
  (try
    (let [reader (java.io.PushbackReader. (java.io.StringReader. text))
          value (binding [*read-eval* false] (read reader))]
      (if (number? value) (str (- (count text) (count (slurp reader))) " " (shown value)) "-"))
    (catch Exception _ "-")))

(doseq [text (line-seq (java.io.BufferedReader. (java.io.InputStreamReader. System/in "latin1")))]
  (println (answer text)))
