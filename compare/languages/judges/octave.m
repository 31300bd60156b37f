# The judge of MATLAB: Octave, which evaluates the text.
# A text that begins with a letter is a name, a sign is an operator, but for that of an exponent, and `...` continues a line.
1;
function shown = judge(text)
  shown = "-";
  if isempty(regexp(text, '^(?!.*\.\.\.)(0[xXbB]\w*|(?!0[xXbB])[\d.][\w.]*([eEdD][+-][\w.]*)?)$', 'once')) return; end
  try
    value = eval([text ";"]);
  catch
    return
  end
  if isinteger(value)
    shown = ["+ " strtrim(disp(value))];
  elseif isfloat(value) && isscalar(value)
    if iscomplex(value) value = imag(value); end
    shown = ["+ d" num2hex(value)];
  end
end
while ischar(text = fgetl(stdin))
  disp(judge(text));
end
