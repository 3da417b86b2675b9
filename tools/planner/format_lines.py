"""One and the same list of requests as lines of many formats, for test_formats.py."""
import collections
import datetime
import random
import re

Made = collections.namedtuple("Made", "ms host path query size method status client")
HOST, URL, TARGET, WRITTEN, LAST = "host and target", "the URL", "the target alone", "as the log writes it", "the host at each line's end, and the target"
UA = "Mozilla/5.0 (X11; Linux x86_64)"
LOG = '[<clf>] "<m> <p><q> HTTP/1.1" <st> <s>'
FRONT, JSON_REQUEST = f"<ip> - - {LOG}", '"request":"<m> <p><q> HTTP/1.1","status":"<st>","body_bytes_sent":"<s>","host":"<h>"'
CLOUDFRONT = "#Version: 1.0\n#Fields: date time x-edge-location sc-bytes c-ip cs-method cs(Host) cs-uri-stem sc-status cs-uri-query x-edge-result-type x-host-header sc-content-len\n"
IIS = "#Software: Microsoft Internet Information Services 10.0\n#Version: 1.0\n#Fields: date time s-ip cs-method cs-uri-stem cs-uri-query s-port cs-username c-ip <>sc-status <>time-taken\n"

# The formats that are read: what keys are made of, a line, and perhaps a head.
READ = {
    "nginx-combined": (TARGET, f'{FRONT} "-" "<ua>"'),
    "nginx-list-at-end": (TARGET, f'{FRONT} "-" "<ua>" "<ip>"'),
    "nginx-host-first": (HOST, f'<h> {FRONT} "-" "<ua>"'),
    "nginx-host-last": (LAST, f'{FRONT} "-" "<ua>" 0.003 0.002 HIT <h>'),
    "nginx-cache-status": (TARGET, f'<ip> - HIT {LOG} "-" "<ua>"'),
    "nginx-host-second": (HOST, f'<ip> <h> - {LOG} "-" "<ua>"'),
    "nginx-host-quoted": (HOST, f'"<h>" {FRONT} "-" "<ua>"'),
    "nginx-iso8601": (TARGET, '<ip> - - [<iso00>] "<m> <p><q> HTTP/1.1" <st> <s> "-" "<ua>"'),
    "nginx-msec": (TARGET, '<ip> - - [<msec>] "<m> <p><q> HTTP/1.1" <st> <s> "-" "<ua>"'),
    "nginx-url": (URL, '<ip> - - [<clf>] "<m> https://<h><p><q> HTTP/1.1" <st> <s> "-" "<ua>"'),
    "nginx-json": (HOST, '{"time":"<iso00>",' + JSON_REQUEST + "}"),
    "nginx-json-msec": (HOST, '{"msec":"<msec>","request_method":"<m>","host":"<h>","request_uri":"<p><q>","status":"<st>","body_bytes_sent":"<s>"}'),
    "nginx-json-time_local": (HOST, '{"time_local":"<clf>","request_method":"<m>","host":"<h>","request_uri":"<p><q>","status":<st>,"body_bytes_sent":<s>}'),
    "docker": (TARGET, '{"log":"<ip> - - [<clf>] \\"<m> <p><q> HTTP/1.1\\" <st> <s> \\"-\\" \\"<ua>\\"\\n","stream":"stdout","time":"<isoms>"}'),
    "docker-json": (HOST, '{"log":"{\\"msec\\":\\"<msec>\\",\\"request_method\\":\\"<m>\\",\\"host\\":\\"<h>\\",\\"request_uri\\":\\"<p><q>\\",\\"status\\":<st>,\\"body_bytes_sent\\":<s>}\\n"}'),
    "kubernetes": (TARGET, f'<isoms> stdout F {FRONT} "-" "<ua>"'),
    "syslog": (TARGET, f'<syslog> web1 nginx: {FRONT} "-" "<ua>"'),
    "syslog-5424": (TARGET, f'<190>1 <isoms> web1 nginx 123 - - {FRONT} "-" "<ua>"'),
    "apache-common": (TARGET, f"<ip> - frank {LOG}"),
    "apache-vhost_combined": (HOST, f'<h>:443 {FRONT} "-" "<ua>"'),
    "apache-vcommon": (HOST, f"<h> {FRONT}"),
    "apache-took": (TARGET, f'{FRONT} "-" "<ua>" <n>'),
    "apache-zone": (TARGET, '<ip> - - [<clf0530>] "<m> <p><q> HTTP/1.1" <st> <s> "-" "<ua>"'),
    "apache-client-name": (TARGET, f'dyn-<n>.isp.example - - {LOG} "-" "<ua>"'),
    "apache-client-user": (TARGET, f'dyn-<n>.isp.example - bob {LOG} "-" "<ua>"'),
    "apache-client-host": (HOST, f'dyn-<n>.isp.example <h> - {LOG} "-" "<ua>"'),
    "nginx-host-within": (TARGET + ": the log names no host, but for words such as www.example.com: if that is one, --line", f'{FRONT} "-" "<ua>" <h> 0.003'),
    "lighttpd": (HOST, f'<ip> <h> - {LOG} "-" "<ua>"'),
    "varnishncsa": (URL, '<ip> - - [<clf>] "<m> http://<h><p><q> HTTP/1.1" <st> <s> "-" "<ua>"'),
    "varnishncsa-hit": (URL, '<ip> - - [<clf>] "<m> http://<h><p><q> HTTP/1.1" <st> <s> "-" "<ua>" hit 0.000123'),
    "squid": (URL, "<msec>    <n> <ip> TCP_MEM_HIT/<st> <s> <m> http://<h><p><q> - HIER_DIRECT/198.51.100.7 text/html"),
    "squid-combined": (URL, '<ip> - - [<clf>] "<m> http://<h><p><q> HTTP/1.1" <st> <s> "-" "<ua>" TCP_MISS:HIER_DIRECT'),
    "ats": (URL, "<msec> <n> <ip> TCP_HIT/<st> <s> <m> http://<h><p><q> - NONE/- text/html"),
    "ats-miss": (URL, "<msec> <n> <ip> TCP_CF_MISS/<st> <s> <m> http://<h><p><q> - DIRECT/origin.example.net text/html"),
    "haproxy": ("the captured host", '<syslog> lb1 haproxy[1234]: <ip>:5000 [<hms>] fe~ be/s1 0/0/1/2/3 <st> <s> - - ---- 1/1/0/0/0 0/0 {<h>} "<m> <p><q> HTTP/1.1"'),
    "caddy": (HOST, '{"level":"info","ts":<msec>,"request":{"remote_ip":"<ip>","method":"<m>","host":"<h>","uri":"<p><q>","headers":{}},"size":<s>,"status":<st>}'),
    "caddy-iso8601": (HOST, '{"level":"info","ts":"<isoms0>","request":{"method":"<m>","host":"<h>","uri":"<p><q>"},"size":<s>,"status":<st>}'),
    "envoy": (HOST, '[<isoms>] "<m> <p><q> HTTP/1.1" <st> - 0 <s> 5 4 "<ip>" "<ua>" "6f1a" "<h>" "10.0.0.3:80"'),
    "envoy-json": (HOST, '{"start_time":"<isoms>","method":"<m>","path":"<p><q>","response_code":<st>,"bytes_received":0,"bytes_sent":<s>,"authority":"<h>"}'),
    "fastly-json": (HOST, '{"timestamp":"<iso0>","host":"<h>","url":"<p><q>","request_method":"<m>","response_status":<st>,"response_body_size":<s>}'),
    "fastly": (TARGET, f"<134><iso> cache-fra19120 S3log[4122]: {FRONT}"),
    "cloudfront": (HOST, "<day>\t<clock>\tFRA2\t<s400>\t<ip>\t<m>\td1.cloudfront.net\t<p>\t<st>\t<q1>\tHit\t<h>\t<s>", CLOUDFRONT),
    "cloudfront-realtime": (HOST, "<msec>\t<ip>\t0.001\t<st>\t<s>\t<m>\thttps\t<h>\t<p><q>\t50\tFRA2\tid==\t<h>\tHit"),
    "cloudfront-json": (HOST, '{"date":"<day>","time":"<clock>","sc-bytes":"<s400>","cs-method":"<m>","cs(Host)":"d1.cloudfront.net","cs-uri-stem":"<p>","sc-status":"<st>",'
                        '"cs-uri-query":"<q1>","x-host-header":"<h>","sc-content-len":"<s>"}'),
    **{"logpush-" + unit: (HOST, '{"ClientRequestHost":"<h>","ClientRequestMethod":"<m>","ClientRequestURI":"<p><q>","EdgeResponseBytes":<s>,"EdgeResponseStatus":<st>,'
                           f'"EdgeStartTimestamp":{value}}}') for unit, value in (("ns", "<ns>"), ("s", "<sec>"), ("ms", "<ms>"), ("iso8601", '"<iso>"'))},
    "google": (URL, '{"httpRequest":{"requestMethod":"<m>","requestUrl":"https://<h><p><q>","status":<st>,"responseSize":"<s>","cacheHit":true},"timestamp":"<isons>"}'),
    "akamai": (HOST, '{"reqTimeSec":"<msec>","reqHost":"<h>","reqMethod":"<m>","reqPath":"<p1>","queryStr":"<q1>","statusCode":"<st>","totalBytes":"<s400>","objSize":"<s>"}'),
    "akamai-w3c": (HOST, '<day>\t<clock>\t<ip>\t<m>\t/<h><p><q>\t<st>\t<s>\t12', "#Version: 1.0\n#Fields: date time cs-ip cs-method cs-uri sc-status sc-bytes time-taken\n"),
    "s3": ("bucket and key", '79a59df9 <h> [<clf>] <ip> arn 3E57 REST.<m>.OBJECT <p1> "<m> <p><q> HTTP/1.1" <st> - <s> <s> 12 11 "-" "<ua>" - id= SigV4 ECDHE AuthHeader <h> TLSv1.2 - -'),
    "traefik-json": (HOST, '{"DownstreamContentSize":<s>,"DownstreamStatus":<st>,"RequestHost":"<h>","RequestMethod":"<m>","RequestPath":"<p><q>","StartUTC":"<isons>"}'),
    "traefik": (TARGET, f'{FRONT} "-" "-" 12 "web@docker" "http://10.0.0.3:80" 5ms'),
    "iis": ("the target alone: the log names no host (IIS: the field cs-host)", "<day> <clock> 10.0.0.1 <m> <p> <q1> 443 - <ip> <st> <n>", IIS.replace("<>", "")),
    "iis-host": (HOST, "<day> <clock> 10.0.0.1 <m> <p> <q1> 443 - <ip> <h> <st> <s> <n>", IIS.replace("<>", "cs-host ", 1).replace("<>", "sc-bytes ").replace("\n", "\r\n")),
    "alb": (HOST, 'https <isoms> app/lb/1 <ip>:1234 10.0.0.1:80 0.000 0.001 0.000 <st> <st> 34 <s> "<m> https://<h>:443<p><q> HTTP/1.1" "<ua>" ECDHE TLSv1.2 arn:x "Root=1" "<h>"'),
    **{"text-" + unit: (WRITTEN, f"<{unit}> <h><p><q> <s>") for unit in ("sec", "msec", "ms", "us", "ns")},
    "libcachesim-ms": (WRITTEN, "<ms>,<h><p><q>,<s>,-1", "# time, object, size, next_access_vtime\n"),
}
# Those that are refused: a word of what is said, a line, and perhaps a head; and the option that reads them.
REFUSED = {
    "iso8601-first": ("--line", '<iso> <ip> <st> <s> "<m> <p><q> HTTP/1.1" "<ua>"', "", {"line": '$time_iso8601 $remote_addr $status $body_bytes_sent "$request" "$http_user_agent"'}),
    "took-then-bytes": ("two numbers follow the status.*--line", '<ip> - - [<clf>] "<m> <p><q> HTTP/1.1" <st> <n> <s> "-" "<ua>"', "",
                        {"line": '$remote_addr - $remote_user [$time_local] "$request" $status $request_time $body_bytes_sent "$http_referer" "$http_user_agent"'}),
    "fraction-then-bytes": ("--line", '<ip> - - [<clf>] "<m> <p><q> HTTP/1.1" <st> 0.004 <s> "-" "<ua>"', "",
                            {"line": '%h %l %u %t \\"%r\\" %>s %{ms}T %b \\"%{Referer}i\\" \\"%{User-Agent}i\\"'}),
    "host-before-request": ("--line", '<ip> - - [<clf>] <h> "<m> <p><q> HTTP/1.1" <st> <s> "-" "<ua>"', "", {"line": '%h %l %u %t %v "%r" %>s %b "%{Referer}i" "%{User-Agent}i"'}),
    "varnishncsa-own": ("--line", "<sec> <m> <h> <p><q> <st> <s> hit", "", {"line": "$msec $request_method $host $request_uri $status $bytes_sent $upstream_cache_status"}),
    "fastly-plain": ("--line", '<134><iso> cache-fra S3log[4122]: <ip> "-" "-" <rfc> <m> <p><q> <st> <s>', "", None),
    "azure-front-door": ("Its fields are: .*properties.httpMethod.*\n.*--json-fields", '{"time":"<isoms>","properties":{"httpMethod":"<m>","requestUri":"https://<h><p><q>","httpStatusCode":"<st>",'
                         '"responseBytes":"<s>","clientIp":"<ip>","hostName":"<h>"}}', "",
                         {"names": "time=time,key=properties.requestUri,bytes=properties.responseBytes,status=properties.httpStatusCode,method=properties.httpMethod"}),
    "url-of-variables": ("--line", '<ip> <clf> "<m> https://<h><p><q>" <st> <s>', "", {"line": '$remote_addr $time_local "$request_method $scheme://$host$request_uri" $status $body_bytes_sent'}),
    "path-and-query": ("--line", '<clf> "<m> <p><q> HTTP/1.1" <h> <st> <s>', "", {"line": '$time_local "%m %U%q %H" %v %s %b'}),
    "bunny": ("--line", "HIT|<st>|<ms>|<s>|1234|<ip>|-|https://<h><p><q>|DE|<ua>|0a|DE", "", {"line": "$upstream_cache_status|$status|$msec|$body_bytes_sent|$a|$b|$c|$request_uri|$d|$e|$f|$g"}),
    "google-storage": ("--line", '"<us>","<ip>","1","","<m>","<p>","<st>","0","<s>","5","<h>"', '"time_micros","c_ip","c_ip_type","c_ip_region","cs_method","cs_uri","sc_status","cs_bytes"\n', None),
    "columns-head": ("--columns", "<sec>,<h><p><q>,<s>", "1,2,3\ntimestamp,object_id,object_size\n", {"columns": "time=1,key=2,bytes=3", "skip": 2}),
    "columns-ms-head": ("--columns", "<ms>,<h><p><q>,<s>", "time,object_id,object_size\n", {"columns": "time=1,key=2,bytes=3", "skip": 1}),
    "columns": ("--columns", "<sec>,<h><p><q>,<s>", "", {"columns": "time=1,key=2,bytes=3"}),
    "columns-ns": ("--columns", "<ns>,<s>,<h><p><q>", "", {"columns": "time=1,key=3,bytes=2"}),
    "key-size": ("--line|--columns", "<h><p><q> <s>", "", None),
    "four-words": ("--columns time=1,key=2,bytes=3 --delimiter ' '", "<sec> <h><p><q> <s> 200", "", None),
}


def requests(count=400, keys=60):
    """Requests of two hosts that have the same paths, some of them no request of a cache."""
    draw, now, out = random.Random(5), 1764460800000, []
    names = [(("www.example.com", "img.example.com")[at % 2], f"/{'aip'[at // 2 % 3]}/{at // 2}", f"?v={at // 2 % 7}" if at // 2 % 6 == 0 else "", draw.randint(300, 30000)) for at in range(keys)]
    # one path has one length on both hosts, so that the first request of a key tells it either way
    names = [(*it[:3], names[at // 2 * 2][3]) for at, it in enumerate(names)]
    order = draw.sample(range(keys), keys)
    for at in draw.choices(order, [1 / (it + 1) ** 0.9 for it in range(keys)], k=count):
        now += draw.randint(0, 2500)
        kind = draw.random()
        method, status, size = ("POST", 200, 17) if kind < 0.02 else ("GET", 404, 153) if kind < 0.05 else ("GET", 200, names[at][3])
        out.append(Made(now, *names[at][:3], size, method, status, f"203.0.113.{draw.randint(1, 250)}"))
    return out


def line_of(shape, it):
    """The line of a request by a shape, in which <h> stands for its host, and so on."""
    when, sec = datetime.datetime.fromtimestamp(it.ms / 1000, datetime.timezone.utc), it.ms // 1000
    later = when + datetime.timedelta(hours=5, minutes=30)
    iso, part = when.strftime("%Y-%m-%dT%H:%M:%S"), f".{it.ms % 1000:03}"
    words = {
        "h": it.host, "p": it.path, "q": it.query, "s": it.size, "s400": it.size + 400, "m": it.method, "st": it.status, "ip": it.client, "ua": UA, "n": it.ms % 90 + 3,
        "p1": it.path[1:], "q1": it.query[1:] or "-", "sec": sec, "ms": it.ms, "us": it.ms * 1000, "ns": it.ms * 10**6, "msec": f"{sec}{part}",
        "clf": when.strftime("%d/%b/%Y:%H:%M:%S +0000"), "clf0530": later.strftime("%d/%b/%Y:%H:%M:%S +0530"), "hms": when.strftime("%d/%b/%Y:%H:%M:%S") + part,
        "iso": iso + "Z", "iso0": iso + "+0000", "iso00": iso + "+00:00", "isoms": iso + part + "Z", "isoms0": iso + part + "+0000", "isons": iso + part + "456789Z",
        "day": iso[:10], "clock": iso[11:], "syslog": when.strftime("%b %d %H:%M:%S"), "rfc": when.strftime("%a, %d %b %Y %H:%M:%S GMT"),
    }
    return re.sub(r"<(\w+)>", lambda found: str(words.get(found[1], found[0])), shape)
