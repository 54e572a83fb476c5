"""Ten more programs of Debian that run.py records: servers under a short load, and tools with several threads.

Debian: apt-get install bwa lld memcached minimap2 nginx pigz redis-server samtools sqlite3"""

from study import ALIGNED, CONFIG, FOLDER, GENOME, LINES, OBJECTS, READS, TEXT, Study

LIBC = "-L/usr/lib/x86_64-linux-gnu"
# Threads of a pool read the file that each client gets.
NGINX = """daemon off;
master_process off;
pid FOLDER/pid;
error_log stderr crit;
thread_pool default threads=4;
events { worker_connections 64; }
http {
    access_log off;
    client_body_temp_path FOLDER/body;
    proxy_temp_path FOLDER/proxy;
    fastcgi_temp_path FOLDER/fastcgi;
    uwsgi_temp_path FOLDER/uwsgi;
    scgi_temp_path FOLDER/scgi;
    server {
        listen 127.0.0.1:18464;
        root FOLDER;
        sendfile off;
        aio threads;
        location / { try_files /text =404; }
    }
}
"""
# Its sorter gives each 250 pages of an index to a thread.
SQL = (
    "PRAGMA page_size=512; PRAGMA cache_size=20; PRAGMA threads=4; CREATE TABLE t(a, b);"
    " WITH RECURSIVE c(x) AS (SELECT 1 UNION ALL SELECT x + 1 FROM c WHERE x < 20000)"
    " INSERT INTO t SELECT x * 7919 % 10007, hex(x * 104729) FROM c;"
    " CREATE INDEX i ON t(b, a); SELECT count(*) FROM t;"
)

PROGRAMS = {
    "memcached": Study(
        ["memcached"],
        ["-l", "127.0.0.1", "-p", "18465", "-t", "4", "-u", "root"],
        clients=["memcached", "18465", "8", "60"],
        is_debian=True,
        status=0,
    ),
    "redis": Study(
        ["redis-server"],
        [
            "--bind",
            "127.0.0.1",
            "--port",
            "18466",
            "--io-threads",
            "4",
            "--io-threads-do-reads",
            "yes",
        ]
        + ["--save", "", "--dir", FOLDER, "--loglevel", "warning"],
        clients=["redis", "18466", "16", "60", "--in-step"],
        is_debian=True,
        status=0,
    ),
    "nginx": Study(
        ["nginx"],
        ["-c", CONFIG, "-e", "stderr"],
        clients=["http", "18464", "8", "20", "--again"],
        is_debian=True,
        status=0,
        config=NGINX,
    ),
    "minimap2": Study(
        ["minimap2"],
        ["-t", "4", "-a", "-o", "/dev/null", GENOME, READS],
        is_debian=True,
        most=40_000_000,
    ),
    "bwa": Study(
        ["bwa"],
        ["mem", "-t", "4", "-K", "20000", "-o", "/dev/null", GENOME, READS],
        is_debian=True,
        most=40_000_000,
        before=["bwa", "index", GENOME],
    ),
    "samtools": Study(
        ["samtools"],
        ["sort", "-@", "4", "-o", f"{FOLDER}/sorted.bam", ALIGNED],
        is_debian=True,
        most=40_000_000,
    ),
    "sqlite3": Study(["sqlite3"], [f"{FOLDER}/base", SQL], is_debian=True, most=40_000_000),
    "pigz": Study(["pigz"], ["-p", "4", "-b", "32", "-c", TEXT], is_debian=True),
    "sort": Study(
        ["sort"],
        ["--parallel=4", "-S", "50M", "-o", "/dev/null", LINES],
        is_debian=True,
        text=1_200_000,
        most=40_000_000,
    ),
    "lld": Study(
        ["ld.lld"],
        ["--threads=4", "-o", f"{FOLDER}/linked", OBJECTS, "-lc", LIBC],
        is_debian=True,
    ),
}
