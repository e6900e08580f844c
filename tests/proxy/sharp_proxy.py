"""Faults of deploy/ that the trials must see."""

from sharp import Spoilt

KEEPER, SNAPSHOT = "deploy/maplabel_run/keeper.py", "deploy/maplabel_run/snapshot.py"
SUPERVISOR, WATCH = "deploy/maplabel_run/supervisor.py", "deploy/maplabel_run/watch.py"
OUTLET, HAPROXY = "deploy/maplabel_run/outlet.py", "deploy/haproxy.cfg"
TELLING, ALARMS = "deploy/maplabel_run/telling.py", "deploy/maplabel-alarms.yml"
TLS = "deploy/nginx-tls.conf"
NGINX, READERS, EDITS = "deploy/nginx.conf", "deploy/nginx-readers.inc", "deploy/nginx-edits.inc"

SPOILT = (
    Spoilt(
        KEEPER,
        "            end(self.process)\n\n    def stop_surely",
        "        end(self.process)\n\n    def stop_surely",
        "killed.stop_lets_go_late",
    ),
    Spoilt(
        SNAPSHOT,
        "    os.replace(new, path)\n    folder",
        "    import shutil\n\n    shutil.copyfile(new, path)\n    folder",
        "killed.at_each_call",
    ),
    Spoilt(SNAPSHOT, "        prove(program, style, new, on_wait)\n", "", "saving.spoilt_style"),
    Spoilt(SNAPSHOT, '    new = path + ".new"\n', "    new = path\n", "killed.at_each_call"),
    Spoilt(
        SNAPSHOT,
        '        raise Fault(f"{what}: {sentence_of(error)}") from error',
        "        raise",
        "disk.read_only",
    ),
    Spoilt(
        SUPERVISOR,
        "        except Fault as fault:\n            self.figures.failed += 1",
        "        except ZeroDivisionError as fault:\n            self.figures.failed += 1",
        "disk.read_only",
    ),
    Spoilt(SUPERVISOR, "        snapshot.try_folder(self.words.map)\n", "", "disk.unfit_start"),
    Spoilt(
        SUPERVISOR,
        "owner = snapshot.Ownership(self.words.map, self.words.port)",
        "owner = snapshot.Ownership(self.words.map + str(self.words.port), self.words.port)",
        "disk.second_run",
    ),
    Spoilt(
        SUPERVISOR,
        "                self._tell_retry(fault)\n",
        "                return self._lose(fault)\n",
        "disk.full_at_end",
    ),
    Spoilt(
        SUPERVISOR,
        "return self.words.count - self.used() < self.words.reserve // 2",
        "return False",
        "disk.full_at_count",
    ),
    Spoilt(
        SUPERVISOR,
        "if self.watch.hung_for() > self.words.hung and self.is_running():",
        "if False:",
        "hung.hung",
    ),
    Spoilt(
        WATCH,
        "        if not self._held:\n",
        (
            '        if self._held and not has_worked:\n            return "held"\n        if not'
            " self._held:\n"
        ),
        "hung.hung",
    ),
    Spoilt(
        OUTLET,
        (
            "            if self._size + len(line) > self._room:\n                self.dropped +="
            " 1\n                return\n"
        ),
        (
            "            while self._size + len(line) > self._room:\n               "
            " self._changed.wait()\n"
        ),
        "lines.stopped_reader",
    ),
    Spoilt(
        HAPROXY, "    http-request disable-l7-retry unless { method GET }\n", "", "haproxy.repeats"
    ),
    Spoilt(HAPROXY, "    tune.bufsize 1114112\n", "", "haproxy.slow_edit"),
    Spoilt(HAPROXY, "    http-request deny deny_status 421 unless is_known\n", "", "haproxy.hosts"),
    Spoilt(
        HAPROXY,
        "    http-request deny deny_status 403 if is_costly !is_here\n",
        "",
        "haproxy.costly_reads",
    ),
    Spoilt(
        NGINX,
        "    reset_timedout_connection on;\n    return 421;",
        "    return 200;",
        "nginx.hosts",
    ),
    Spoilt(NGINX, "    limit_conn maplabel_queue 16;\n", "", "nginx.queue"),
    Spoilt(NGINX, "client_header_timeout 5s;", "client_header_timeout 60s;", "nginx.slow_head"),
    Spoilt(
        READERS,
        'proxy_cache_key "$maplabel_second $request_uri";\nproxy_cache_valid 200 2s;',
        'proxy_cache_key "$request_uri";\nproxy_cache_valid 200 1s;',
        "nginx.clock",
    ),
    Spoilt(
        READERS,
        "proxy_http_version 1.1;",
        "proxy_http_version 1.1;\nproxy_next_upstream off;",
        "nginx.reloads",
    ),
    Spoilt(READERS, "    gzip_static always;\n", "", "nginx.published"),
    Spoilt(EDITS, 'if ($http_x_edit = "") { return 403; }\n', "", "nginx.refusals"),
    Spoilt(EDITS, "if (-f /run/maplabel/drain) { return 503; }\n", "", "nginx.refusals"),
    Spoilt(NGINX, "        allow 127.0.0.1;\n        deny all;\n", "", "nginx.refusals"),
    Spoilt(EDITS, "limit_conn maplabel_edits 32;\n", "", "nginx.edits_queue"),
    Spoilt(READERS, "client_body_timeout 5s;", "client_body_timeout 60s;", "nginx.slow_clients"),
    Spoilt(READERS, "send_timeout 10s;", "send_timeout 60s;", "nginx.slow_clients"),
    Spoilt(READERS, "limit_conn maplabel_clients 60;\n", "", "nginx.many_at_once"),
    Spoilt(
        NGINX,
        "limit_req zone=maplabel_costly_readers burst=10 nodelay;\n",
        "\n",
        "nginx.costly_in_a_while",
    ),
    Spoilt(READERS, "proxy_cache_min_uses 2;", "proxy_cache_min_uses 1;", "nginx.written_down"),
    Spoilt(READERS, "location = /style.json {", "location = /other.json {", "nginx.style_told"),
    Spoilt(
        SUPERVISOR,
        "        self._saved()\n        self._publish_style()\n",
        "        self._saved()\n",
        "nginx.style_told",
    ),
    Spoilt("deploy/maplabel.service", "IPAddressDeny=any\n", "", "systemd.units"),
    Spoilt(TLS, "ssl_verify_client on;", "ssl_verify_client optional_no_ca;", "tls.edits"),
    Spoilt(
        HAPROXY,
        "    http-request set-priority-class int(-10) if is_edit\n",
        "",
        "haproxy.edits_first",
    ),
    Spoilt(HAPROXY, "gt 250", "gt 25000", "haproxy.too_often"),
    Spoilt(HAPROXY, "tune.http.maxhdr 64", "tune.http.maxhdr 101", "haproxy.fields"),
    Spoilt(
        HAPROXY,
        "400 if is_read { req.hdr(Transfer-Encoding) -m found }",
        "400 if is_read { req.hdr(No-Such-Field) -m found }",
        "haproxy.read_with_body",
    ),
    Spoilt(SNAPSHOT, "        os.fsync(file.fileno())\n", "", "killed.on_disk"),
    Spoilt(SNAPSHOT, "        os.fsync(folder)\n", "        pass\n", "killed.on_disk"),
    Spoilt(
        KEEPER,
        "            self.bring(link, is_quick)\n            end(self.process)\n",
        "            end(self.process)\n",
        "saving.planned",
    ),
    Spoilt(
        SUPERVISOR,
        "            self.ends = 0\n            self.allow_edits()\n",
        "            self.ends = 0\n",
        "holding.run_never",
    ),
    Spoilt(
        SUPERVISOR, "if not self.ends or now > self._ends_at + DOUBLE:", "if True:", "disk.given_up"
    ),
    Spoilt(
        WATCH,
        "waits = any(one.is_listening and one.unread for one in there)",
        "waits = False",
        "hung.idle",
    ),
    Spoilt(
        TELLING,
        "        self._outlet.put(f",
        "        os.write(1, f",
        "lines.stopped_log",
    ),
    Spoilt(ALARMS, "maplabel_held_seconds > 20", "maplabel_held_seconds > 200", "watching.alarms"),
    Spoilt(ALARMS, "ended|hung", "ended", "watching.alarms"),
    Spoilt(
        SUPERVISOR,
        "            self.child.end()  # nobody has been answered by it, so nothing is lost\n",
        "",
        "saving.ended_while_loading",
    ),
)
