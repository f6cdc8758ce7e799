# Completion of the words of dnw, for bash.
_dnw() {
    local word=${COMP_WORDS[COMP_CWORD]} before=${COMP_WORDS[COMP_CWORD - 1]} command=${COMP_WORDS[1]} words= options= option
    case $command in
        message) options='--lines --framed --json' ;;
        query) options='--id= --edns --dnssec --option= --tcp' ;;
        name) options='--key --reverse --lines --sort' ;;
        zone-digest) options='--include=' ;;
        zone) options='--origin --include= --ttl= --generate-limit= --sort --relative --wire --check' ;;
    esac
    case $command,$COMP_CWORD,$before in
        *,1,*) words='message query name key-tag ds nsec3 zone-digest zone --help --version' ;;
        zone,*,--origin) ;;
        query,4,*) [[ $word = -* ]] || words='IN CH HS NONE ANY' ;;
        query,3,*)
            words='A AAAA CAA CDNSKEY CDS CNAME DNSKEY DS HINFO HTTPS LOC MX NAPTR NS NSEC NSEC3 NSEC3PARAM OPENPGPKEY PTR RRSIG SMIMEA
                SOA SRV SSHFP SVCB TLSA TXT URI ZONEMD ANY AXFR IXFR'
            ;;
        nsec3,4,*) words=- ;;
        message,2,* | zone,2,* | zone-digest,4,* | name,*,--sort | name,*,--lines) [[ $word = --* ]] || words=FILES ;;
    esac
    if [ "$words" = FILES ]; then
        mapfile -t COMPREPLY < <(compgen -f -- "$word")
        return
    fi
    # The options that are not there yet, unless another word is wanted.
    if [ -z "$words" ] && [ "$before" != --origin ]; then
        for option in $options; do
            [[ $option != --include= && $option != --option= && " ${COMP_WORDS[*]:2:COMP_CWORD-2} " = *" $option "* ]] || words+=" $option"
        done
    fi
    mapfile -t COMPREPLY < <(compgen -W "$words" -- "$word")
    # Before the file an option may be there, and after an option the file.
    [[ $command != message && $command != zone || $before = --origin || ${#COMPREPLY[@]} != 0 ]] ||
        mapfile -t COMPREPLY < <(compgen -f -- "$word")
}
complete -F _dnw dnw
