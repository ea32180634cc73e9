-- Asks rbacd about a request, with its method, target and fields. txn.rbacd becomes the status of the answer, or 0 if there is none.
local ADDRESS, PORT = "127.0.0.1", 8181
local SECONDS = 1

local function set_of(names)
  local set = {}
  for name in names:gmatch("%S+") do
    set[name] = true
  end
  return set
end

-- fields about the connection or the body, which rbacd does not get
local LEFT_OUT = set_of("connection content-length expect transfer-encoding")
-- LEFT_OUT.cookie = true -- for cookies of more than 4,096 bytes: then each filter finds none, and no DENY on one matches
-- fields that stay, also if Connection lists them: HAProxy reads them itself
local KEPT = set_of("connection content-length host transfer-encoding upgrade")

-- Drops the fields that Connection lists: they are of one connection alone (RFC 9110, 7.6.1).
local function drop_listed(txn)
  local values = txn.http:req_get_headers()["connection"] or {}
  for _, value in pairs(values) do
    for name in value:lower():gmatch("[^%s,]+") do
      if not KEPT[name] then
        txn.http:req_del_header(name)
      end
    end
  end
end

local function head(txn)
  local lines = {txn.sf:method() .. " " .. txn.sf:pathq() .. " HTTP/1.1", "connection: close"}
  for name, values in pairs(txn.http:req_get_headers()) do
    if not LEFT_OUT[name] then
      for at = 0, #values do
        lines[#lines + 1] = name .. ": " .. values[at]
      end
    end
  end
  return table.concat(lines, "\r\n") .. "\r\n\r\n"
end

local function status(text)
  local socket = core.tcp()
  socket:settimeout(SECONDS)
  local line = socket:connect(ADDRESS, PORT) and socket:send(text) and socket:receive("*l")
  socket:close()
  return tonumber((line or ""):match("^HTTP/1%.1 (%d%d%d) ") or 0)
end

core.register_action("drop_listed", {"http-req"}, drop_listed, 0)
core.register_action("rbacd", {"http-req"}, function(txn)
  txn:set_var("txn.rbacd", status(head(txn)))
end, 0)
