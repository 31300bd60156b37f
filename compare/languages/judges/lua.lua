-- The compiler of Lua. A chunk does not begin with a number: the error shows the token.
for text in io.lines() do
    local _, error = load(text, "=")
    local number = error and error:match("unexpected symbol near '(%.?%d.*)'$")
    local value = number and load("return " .. number)()
    if math.type(value) == "float" then
        value = "d" .. string.pack(">d", value):gsub(".", function(byte) return ("%02x"):format(byte:byte()) end)
    end
    print(number and #number .. " " .. value or "-")
end
