// A peer of pion that is driven by lines of JSON. Each line is a call, and is replied to with what was done, or with the error.
package main

import (
	"bufio"
	"encoding/json"
	"errors"
	"os"

	"github.com/pion/webrtc/v3"
)

type call struct {
	Name    string
	Changes [][]string
	Text    string
}

type reply struct {
	Done  string `json:"done"`
	Error string `json:"error,omitempty"`
}

var extensions = []string{
	"urn:ietf:params:rtp-hdrext:sdes:mid",
	"urn:ietf:params:rtp-hdrext:sdes:rtp-stream-id",
	"urn:ietf:params:rtp-hdrext:sdes:repaired-rtp-stream-id",
}

var peer *webrtc.PeerConnection

func begin() error {
	if peer != nil {
		if err := peer.Close(); err != nil {
			return err
		}
	}
	var media webrtc.MediaEngine
	if err := media.RegisterDefaultCodecs(); err != nil {
		return err
	}
	for _, uri := range extensions {
		extension := webrtc.RTPHeaderExtensionCapability{URI: uri}
		if err := media.RegisterHeaderExtension(extension, webrtc.RTPCodecTypeVideo); err != nil {
			return err
		}
	}
	if err := media.RegisterHeaderExtension(webrtc.RTPHeaderExtensionCapability{URI: extensions[0]}, webrtc.RTPCodecTypeAudio); err != nil {
		return err
	}
	var setting webrtc.SettingEngine
	setting.SetIncludeLoopbackCandidate(true)
	made, err := webrtc.NewAPI(webrtc.WithMediaEngine(&media), webrtc.WithSettingEngine(setting)).NewPeerConnection(webrtc.Configuration{})
	peer = made
	return err
}

func newTrack(kind string, options ...func(*webrtc.TrackLocalStaticRTP)) (*webrtc.TrackLocalStaticSample, error) {
	names := map[string]string{"audio": webrtc.MimeTypeOpus, "video": webrtc.MimeTypeVP8}
	return webrtc.NewTrackLocalStaticSample(webrtc.RTPCodecCapability{MimeType: names[kind]}, kind, "stream", options...)
}

func addLine(kind, direction string) (*webrtc.RTPTransceiver, error) {
	init := webrtc.RTPTransceiverInit{Direction: webrtc.NewRTPTransceiverDirection(direction)}
	if direction == "recvonly" {
		return peer.AddTransceiverFromKind(webrtc.NewRTPCodecType(kind), init)
	}
	track, err := newTrack(kind)
	if err != nil {
		return nil, err
	}
	return peer.AddTransceiverFromTrack(track, init)
}

func addLayers() error {
	var line *webrtc.RTPTransceiver
	for _, rid := range []string{"h", "m", "l"} {
		track, err := newTrack("video", webrtc.WithRTPStreamID(rid))
		if err != nil {
			return err
		}
		if line == nil {
			init := webrtc.RTPTransceiverInit{Direction: webrtc.RTPTransceiverDirectionSendonly}
			line, err = peer.AddTransceiverFromTrack(track, init)
		} else {
			err = line.Sender().AddEncoding(track)
		}
		if err != nil {
			return err
		}
	}
	return nil
}

// A line that has PCMU alone.
func addPCMU() error {
	line, err := addLine("audio", "recvonly")
	if err != nil {
		return err
	}
	codec := webrtc.RTPCodecCapability{MimeType: webrtc.MimeTypePCMU, ClockRate: 8000}
	return line.SetCodecPreferences([]webrtc.RTPCodecParameters{{RTPCodecCapability: codec, PayloadType: 0}})
}

func stopLine(mid string) error {
	for _, line := range peer.GetTransceivers() {
		if line.Mid() == mid {
			return line.Stop()
		}
	}
	return nil
}

func change(words []string) error {
	switch words[0] {
	case "audio", "video":
		_, err := addLine(words[0], words[1])
		return err
	case "layers":
		return addLayers()
	case "codec":
		return addPCMU()
	case "channel":
		_, err := peer.CreateDataChannel("c", nil)
		return err
	case "stop":
		return stopLine(words[1])
	case "restart":
		return nil
	}
	return errors.New("no change " + words[0])
}

func offer(changes [][]string) (string, error) {
	var options webrtc.OfferOptions
	for _, words := range changes {
		if err := change(words); err != nil {
			return "", err
		}
		options.ICERestart = options.ICERestart || words[0] == "restart"
	}
	made, err := peer.CreateOffer(&options)
	if err != nil {
		return "", err
	}
	return made.SDP, peer.SetLocalDescription(made)
}

func answer(text string) (string, error) {
	err := peer.SetRemoteDescription(webrtc.SessionDescription{Type: webrtc.SDPTypeOffer, SDP: text})
	if err != nil {
		return "", err
	}
	made, err := peer.CreateAnswer(nil)
	if err != nil {
		return "", err
	}
	return made.SDP, peer.SetLocalDescription(made)
}

func perform(it call) (string, error) {
	switch it.Name {
	case "begin":
		return "", begin()
	case "offer":
		return offer(it.Changes)
	case "answer":
		return answer(it.Text)
	case "take":
		return "", peer.SetRemoteDescription(webrtc.SessionDescription{Type: webrtc.SDPTypeAnswer, SDP: it.Text})
	}
	return "", errors.New("no call " + it.Name)
}

func main() {
	in, out := bufio.NewReader(os.Stdin), json.NewEncoder(os.Stdout)
	for {
		line, err := in.ReadBytes('\n')
		if err != nil {
			return
		}
		var it call
		var told reply
		if err = json.Unmarshal(line, &it); err == nil {
			told.Done, err = perform(it)
		}
		if err != nil {
			told.Error = err.Error()
		}
		if out.Encode(told) != nil {
			return
		}
	}
}
