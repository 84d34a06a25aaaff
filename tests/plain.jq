# Reply lines of JSON in the plain form: jq -r -f tests/plain.jq < REPLIES
def ending: if has("fixed") then "\(.fixed)" elif .moving == 0 then "t" elif .moving > 0 then "t+\(.moving)" else "t\(.moving)" end;
def told: if .refused then "refused \(.refused)" elif .bad then "bad \(.bad)" elif .wide then "wide" elif .rows then "rows \(.rows)" else "counts \(.counts)" end;
if .line then "line \(.line) \(told)"
elif .tick then "tick \(.tick) \(if .wide then "wide" else "gained \(.gained) lost \(.lost)" end)"
elif .count then "\(.from)..\(.to) \(.count)"
else "\(if .sign then "\(.sign) " else "" end)\(.id) \(.from)..\(.to)\(if .target then " \(.target) \(.low | ending)..\(.high | ending)" else "" end)"
end
