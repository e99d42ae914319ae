#!/bin/sh
# slurm_here.sh start DIR: a controller and a worker daemon of Slurm on this machine only, with their files in DIR.
# slurm_here.sh stop DIR: ends them. What they answer is trusted without keys, so this is for trying a night, and no more.
set -eu
mkdir -p "$2" && cd "$2" && dir=$(pwd)
case $1 in
start)
  host=$(hostname -s)
  mkdir -p state spool
  cat > slurm.conf <<CONF
ClusterName=here
SlurmctldHost=$host(127.0.0.1)
SlurmctldPort=${PORT:-26817}
SlurmdPort=$((${PORT:-26817} + 1))
AuthType=auth/none
CredType=cred/none
SlurmUser=$(id -un)
SlurmdUser=$(id -un)
StateSaveLocation=$dir/state
SlurmdSpoolDir=$dir/spool
SlurmctldPidFile=$dir/slurmctld.pid
SlurmdPidFile=$dir/slurmd.pid
SlurmctldLogFile=$dir/slurmctld.log
SlurmdLogFile=$dir/slurmd.log
ProctrackType=proctrack/linuxproc
TaskPlugin=task/none
MpiDefault=none
SelectType=select/cons_tres
SelectTypeParameters=CR_CPU_Memory
MaxArraySize=10001
NodeName=$host NodeAddr=127.0.0.1 CPUs=$(nproc) RealMemory=$(awk '/MemAvailable/ {print int($2 / 1024)}' /proc/meminfo)
PartitionName=night Nodes=ALL Default=YES MaxTime=INFINITE State=UP
CONF
  slurmctld -c -f "$dir/slurm.conf"
  slurmd -c -f "$dir/slurm.conf"
  echo "export SLURM_CONF=$dir/slurm.conf"
  ;;
stop)
  for daemon in slurmd slurmctld; do
    if test -s $daemon.pid; then kill "$(cat $daemon.pid)" || true; fi
  done
  ;;
esac
