#!/usr/bin/env bash
# Starts a Slurm of this one machine, with all that it writes below a folder: slurm_of_one.sh FOLDER. It ends with the file of settings
# on standard output (SLURM_CONF names it to Slurm's commands), and the three numbers of its processes in FOLDER/pids. It needs no systemd, no
# mounted cgroups and no settings of the machine's own. Debian: slurmctld slurmd slurm-client munge. Root is wanted.
set -eu
at=$1
port=$((20000 + RANDOM % 20000))
export PATH=$PATH:/usr/sbin:/sbin
mkdir -p "$at"/{state,spool}
chmod 755 "$at"
head -c 1024 /dev/urandom >"$at/key"
chmod 400 "$at/key"
cat >"$at/slurm.conf" <<END
ClusterName=one
SlurmctldHost=$(hostname -s)(127.0.0.1)
SlurmctldPort=$port
SlurmdPort=$((port + 1))
AuthType=auth/munge
AuthInfo=socket=$at/munge.socket
CredType=cred/munge
SlurmUser=root
SlurmdUser=root
StateSaveLocation=$at/state
SlurmdSpoolDir=$at/spool
SlurmctldPidFile=$at/slurmctld.pid
SlurmdPidFile=$at/slurmd.pid
SlurmctldLogFile=$at/slurmctld.log
SlurmdLogFile=$at/slurmd.log
ProctrackType=proctrack/linuxproc
TaskPlugin=task/none
JobAcctGatherType=jobacct_gather/none
AccountingStorageType=accounting_storage/none
SelectType=select/cons_tres
SelectTypeParameters=CR_CPU
ReturnToService=2
MpiDefault=none
NodeName=$(hostname -s) NodeAddr=127.0.0.1 CPUs=$(nproc) State=UNKNOWN
PartitionName=all Nodes=ALL Default=YES MaxTime=INFINITE State=UP
END
# (nothing above uses cgroups, but slurmd still looks for mounted ones, which a chroot or a container may lack, unless a version is named)
echo "CgroupPlugin=cgroup/v1" >"$at/cgroup.conf"
export SLURM_CONF=$at/slurm.conf
munged --foreground --force --socket "$at/munge.socket" --key-file "$at/key" --pid-file "$at/munge.pid" --log-file "$at/munge.log" \
    --seed-file "$at/munge.seed" >"$at/munge.out" 2>&1 &
echo $! >"$at/pids"
for _ in $(seq 100); do
    [ ! -S "$at/munge.socket" ] || break
    sleep 0.1
done
slurmctld -D >"$at/slurmctld.out" 2>&1 &
echo $! >>"$at/pids"
slurmd -D >"$at/slurmd.out" 2>&1 &
echo $! >>"$at/pids"
for _ in $(seq 200); do
    case $(sinfo --noheader --format %t 2>/dev/null) in idle*) echo "$SLURM_CONF" && exit ;; esac
    [ "$(jobs -r -p | wc -l)" = 3 ] || break
    sleep 0.1
done
echo "slurm_of_one.sh: Slurm didn't come up; $at has its logs, which end with:" >&2
tail -n 3 "$at"/{munge,slurmctld,slurmd}.out >&2
exit 1
