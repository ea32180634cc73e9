-- Asks oauth2-proxy who a request is from, by its cookie. txn.oauth2 becomes the status of the answer, or 0 if there is none; txn.user the user.
local ADDRESS, PORT = "127.0.0.1", 4180
local SECONDS = 1

local function answer(text)
  local socket = core.tcp()
  socket:settimeout(SECONDS)
  local line = socket:connect(ADDRESS, PORT) and socket:send(text) and socket:receive("*l")
  local status, user = tonumber((line or ""):match("^HTTP/1%.%d (%d%d%d)") or 0), nil
  while line and line ~= "" do
    line = socket:receive("*l")
    user = user or (line or ""):match("^[Xx]%-[Aa]uth%-[Rr]equest%-[Uu]ser:%s*(%S+)")
  end
  socket:close()
  return status, user
end

core.register_action("oauth2", {"http-req"}, function(txn)
  local fields = txn.http:req_get_headers()
  local text = "GET /oauth2/auth HTTP/1.1\r\nConnection: close\r\nHost: " .. (fields["host"] or {[0] = ""})[0] .. "\r\n"
  for _, value in pairs(fields["cookie"] or {}) do
    text = text .. "Cookie: " .. value .. "\r\n"
  end
  local status, user = answer(text .. "\r\n")
  txn:set_var("txn.oauth2", user and status or (status == 202 and 0 or status))
  txn:set_var("txn.user", user or "")
end, 0)
